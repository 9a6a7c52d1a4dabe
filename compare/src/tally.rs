//! How often each kind of event got each answer and each reason, how often each
//! operation and comparison of WAKE_OP was seen, how the caps of wakes and requeues
//! were used up and what was seen of their order, what was done to threads that have
//! a priority, how often a priority was too high, how often a running thread called
//! though the list says 64 or more, and which of these must have come up for a run to
//! count.

use std::fmt::Write;

use second::layout::ASLEEP;
use second::model::{Event, State, PRIVATE_BIT, THREADS, THREADS_PER_PROCESS};

use crate::caps::{self, ENDS};
use crate::operations::{self, Shown, COMPARISONS, OPERATIONS, WAYS};
use crate::order::{self, Shows, SHOWS};
use crate::priorities::{self, Fates, TooHigh, FATES, RECORDS};
use crate::reasons::{self, Reasons, SETS};

/// A kind of event: a command, or one of the others.
pub type Kind = &'static str;

pub const FRESH: Kind = "fresh";
const KINDS: &[Kind] = &[
    "WAIT",
    "WAKE",
    "REQUEUE",
    "CMP_REQUEUE",
    "WAKE_OP",
    "WAIT_BITSET",
    "WAKE_BITSET",
    "unknown command",
    "store",
    "clock",
    "interrupt",
    "set priority",
    "query",
    FRESH,
];
/// An answer, or a group of them: counts above 0 are all SOME, panel answers
/// with sleepers too.
const SOME: i64 = 1;
const NOBODY: i64 = 8 << 16;
const SLEPT: i64 = ASLEEP as i64;

/// What each kind must have been answered, besides -6 and -9.
fn due(kind: Kind) -> &'static [i64] {
    match kind {
        "WAIT" | "WAIT_BITSET" => &[-3, -16, -22, -14, -11, -110, SLEPT],
        "WAKE" | "WAKE_BITSET" | "REQUEUE" => &[-3, -16, -22, -14, 0, SOME],
        "CMP_REQUEUE" => &[-3, -16, -22, -14, -11, 0, SOME],
        "WAKE_OP" => &[-3, -16, -22, -14, -38, 0, SOME],
        "unknown command" => &[-3, -16, -38],
        "store" => &[-3, -22, -14, 0],
        "clock" => &[-22, 0, SOME],
        "interrupt" => &[-3, 0, SOME],
        "set priority" => &[-3, -22, 0],
        "query" => &[NOBODY, SOME],
        _ => &[0, -9],
    }
}

/// The same as numbers in a row, for a fast count.
fn place(event: &Event) -> usize {
    match event {
        Event::Call(call) => match call.op & !PRIVATE_BIT {
            0 => 0,
            1 => 1,
            op @ 3..=5 => op as usize - 1,
            op @ 9..=10 => op as usize - 4,
            _ => 7,
        },
        Event::Store { .. } => 8,
        Event::Clock { .. } => 9,
        Event::Interrupt { .. } => 10,
        Event::SetPriority { .. } => 11,
        Event::Query { .. } => 12,
    }
}

pub fn kind(event: &Event) -> Kind {
    KINDS[place(event)]
}

/// How an event was asked: by its number alone, or with no byte for its report,
/// with one, with more.
#[derive(Clone, Copy)]
pub enum Form {
    Number,
    Empty,
    Exact,
    Longer,
}

const FORMS: &[&str] = &["number alone", "report of 0 bytes", "report of 1 byte", "report of more"];

impl Form {
    pub fn of(length: Option<usize>) -> Form {
        match length {
            None => Form::Number,
            Some(0) => Form::Empty,
            Some(1) => Form::Exact,
            Some(_) => Form::Longer,
        }
    }
}

/// All answers, counts above 0 as one, each with its place.
const ANSWERS: &[i64] = &[-110, -38, -22, -16, -14, -11, -9, -6, -3, 0, SOME, SLEPT, NOBODY];

fn place_of(number: i64) -> Option<usize> {
    let group = match number {
        SLEPT | NOBODY | 0 => number,
        number if number > 0 => SOME,
        number => number,
    };
    ANSWERS.iter().position(|&answer| answer == group)
}

/// Whether some event has this answer. None is -12, for which the second
/// kernel still has its test.
pub fn is_answer(number: i64) -> bool {
    place_of(number).is_some()
}

fn answer_place(number: i64) -> usize {
    place_of(number).expect("an answer that some event has")
}

/// Whether the event is a call by a thread that runs though the list says 64 or
/// more: there only the test of the tables stands before one for -12.
fn crowded(event: &Event, state: Option<&State>) -> bool {
    match (event, state) {
        (Event::Call(call), Some(state)) => {
            let (process, index) = (call.process as usize, call.index as usize);
            let thread = THREADS_PER_PROCESS * process + index;
            index < THREADS_PER_PROCESS
                && thread < THREADS
                && !state.threads[thread].waiting
                && state.count >= THREADS as u64
        }
        _ => false,
    }
}

type Counts = [u64; ANSWERS.len()];

pub struct Tally {
    counts: [[Counts; KINDS.len()]; FORMS.len()],
    /// How often a kind was refused for a set of reasons, where it was seen.
    reasons: [[u64; SETS]; KINDS.len()],
    /// How often a comparison came out in a way, and an operation had an oparg
    /// that was not negative, and one that was.
    compared: [[u64; WAYS]; COMPARISONS],
    operated: [[u64; 2]; 16],
    /// How often the caps of a kind were used up so.
    capped: [[u64; ENDS]; KINDS.len()],
    /// How often a kind showed so much of its order.
    ordered: [[u64; SHOWS]; KINDS.len()],
    /// How often a kind did so to threads that have a priority.
    fated: [[u64; FATES]; KINDS.len()],
    /// How often a kind was refused for a priority too high, in which record.
    high: [[u64; RECORDS.len()]; KINDS.len()],
    /// How often a running thread called though the list said 64 or more.
    crowded: [u64; KINDS.len()],
    pub sound: u64,
    pub broken: u64,
    /// A bit for each number of sleepers that tables had, and for each rule
    /// that was broken.
    pub sleepers: u128,
    pub breaks: u128,
}

impl Tally {
    pub fn new() -> Tally {
        Tally {
            counts: [[[0; ANSWERS.len()]; KINDS.len()]; FORMS.len()],
            reasons: [[0; SETS]; KINDS.len()],
            compared: [[0; WAYS]; COMPARISONS],
            operated: [[0; 2]; 16],
            capped: [[0; ENDS]; KINDS.len()],
            ordered: [[0; SHOWS]; KINDS.len()],
            fated: [[0; FATES]; KINDS.len()],
            high: [[0; RECORDS.len()]; KINDS.len()],
            crowded: [0; KINDS.len()],
            sound: 0,
            broken: 0,
            sleepers: 0,
            breaks: 0,
        }
    }

    /// An event, its answer, how it was asked and the reasons that applied.
    pub fn event(&mut self, event: &Event, number: i64, form: Form, applying: Reasons) {
        let kind = place(event);
        self.counts[form as usize][kind][answer_place(number)] += 1;
        if matches!(form, Form::Exact | Form::Longer) {
            self.reasons[kind][applying as usize] += 1;
        }
    }

    /// An event that is to come, and the tables that it finds.
    pub fn finds(&mut self, event: &Event, state: Option<&State>) {
        self.crowded[place(event)] += crowded(event, state) as u64;
    }

    pub fn wake_op(&mut self, shown: Option<Shown>) {
        if let Some(shown) = shown {
            self.compared[shown.comparison][shown.way] += 1;
            self.operated[shown.operation][shown.oparg_negative as usize] += 1;
        }
    }

    pub fn caps(&mut self, event: &Event, end: Option<usize>) {
        if let Some(end) = end {
            self.capped[place(event)][end] += 1;
        }
    }

    pub fn order(&mut self, event: &Event, shows: Shows) {
        for (count, seen) in self.ordered[place(event)].iter_mut().zip(shows) {
            *count += seen as u64;
        }
    }

    pub fn fates(&mut self, event: &Event, fates: Fates) {
        for (count, seen) in self.fated[place(event)].iter_mut().zip(fates) {
            *count += seen as u64;
        }
    }

    /// An event's answer, and the one priority that made the tables break a rule.
    pub fn too_high(&mut self, event: &Event, number: i64, record: Option<TooHigh>) {
        if let (Some(record), -9 | NOBODY) = (record, number) {
            self.high[place(event)][record] += 1;
        }
    }

    pub fn fresh(&mut self, number: i64) {
        self.counts[Form::Number as usize][KINDS.len() - 1][answer_place(number)] += 1;
    }

    pub fn events(&self) -> u64 {
        self.counts.iter().flatten().flatten().sum()
    }

    /// The answers that should have come up and didn't, by each form.
    fn missing_answers(&self, missing: &mut Vec<String>) {
        for (form, counts) in FORMS.iter().zip(&self.counts) {
            for (kind, counts) in KINDS.iter().zip(counts) {
                let reported = !matches!(*kind, "query" | FRESH);
                if !reported && *form != FORMS[0] {
                    continue;
                }
                let both: &[i64] = if reported { &[-6, -9] } else { &[] };
                for &answer in both.iter().chain(due(kind)) {
                    if counts[answer_place(answer)] == 0 {
                        missing.push(format!("{kind} answered {}, {form}", name(answer)));
                    }
                }
            }
        }
    }

    /// The reasons that should have come up alone, or two at once, and didn't.
    fn missing_reasons(&self, missing: &mut Vec<String>) {
        for (kind, counts) in KINDS.iter().zip(&self.reasons) {
            let possible = reasons::possible(kind);
            for (at, &reason) in possible.iter().enumerate() {
                if counts[1 << reason] == 0 {
                    missing.push(format!("{kind} refused for reason {reason} alone"));
                }
                for &other in &possible[at + 1..] {
                    let both = 1 << reason | 1 << other;
                    if (0..SETS).all(|set| set & both != both || counts[set] == 0) {
                        missing.push(format!("{kind} with reasons {reason} and {other}"));
                    }
                }
            }
        }
    }

    /// The comparisons and operations that should have come up and didn't.
    fn missing_operations(&self, missing: &mut Vec<String>) {
        for (comparison, counts) in self.compared.iter().enumerate() {
            for way in (0..WAYS).filter(|&way| operations::possible(comparison, way)) {
                if counts[way] == 0 {
                    missing.push(format!("comparison {comparison} {}", operations::way_name(way)));
                }
            }
        }
        for &operation in OPERATIONS {
            for negative in [false, true] {
                if self.operated[operation][negative as usize] == 0 {
                    let sign = operations::sign(negative);
                    missing.push(format!("operation {operation} with an oparg that is {sign}"));
                }
            }
        }
    }

    /// How often each kind's caps were used up in each way that they can.
    fn all_caps(&self) -> impl Iterator<Item = (String, u64)> + '_ {
        by_kind(&self.capped, caps::ends)
    }

    /// How often each kind showed what it can of its order.
    fn all_shows(&self) -> impl Iterator<Item = (String, u64)> + '_ {
        by_kind(&self.ordered, order::shows)
    }

    /// How often each kind did what it can to threads that have a priority.
    fn all_fates(&self) -> impl Iterator<Item = (String, u64)> + '_ {
        by_kind(&self.fated, priorities::fates)
    }

    /// The records in which a priority too high should have been refused and wasn't.
    fn missing_too_high(&self, missing: &mut Vec<String>) {
        for (kind, counts) in KINDS.iter().zip(&self.high).filter(|(kind, _)| **kind != FRESH) {
            for (record, _) in RECORDS.iter().zip(counts).filter(|(_, &count)| count == 0) {
                missing.push(format!("{kind} with a priority above 31 in a {record} record"));
            }
        }
    }

    /// What should have come up and didn't.
    pub fn missing(&self, breaks: usize) -> Vec<String> {
        let mut missing = Vec::new();
        self.missing_answers(&mut missing);
        self.missing_reasons(&mut missing);
        self.missing_operations(&mut missing);
        self.missing_too_high(&mut missing);
        let counted = self.all_caps().chain(self.all_shows()).chain(self.all_fates());
        missing.extend(counted.filter(|&(_, count)| count == 0).map(|(name, _)| name));
        let unseen = |&(kind, n): &(&Kind, u64)| n == 0 && due(kind).contains(&-16);
        for (kind, _) in KINDS.iter().zip(self.crowded).filter(unseen) {
            missing.push(format!("{kind} by a running thread on a list that says 64 or more"));
        }
        for sleepers in (0..=64).filter(|&n| self.sleepers >> n & 1 == 0) {
            missing.push(format!("tables with {sleepers} sleepers"));
        }
        for which in (0..breaks).filter(|&n| self.breaks >> n & 1 == 0) {
            missing.push(format!("broken rule {which}"));
        }
        missing
    }

    /// One line: events by kind, answers, forms, reasons, comparisons, ends of caps,
    /// orders, fates of threads with a priority and priorities too high seen, calls on
    /// a list that says 64 or more, tables.
    pub fn summary(&self) -> String {
        let kinds = KINDS.iter().enumerate().map(|(at, kind)| {
            let counts = self.counts.iter().flat_map(|counts| counts[at]);
            format!("{kind} {}", counts.sum::<u64>())
        });
        let answers = ANSWERS.iter().enumerate().map(|(at, &answer)| {
            let counts = self.counts.iter().flatten().map(|counts| counts[at]);
            format!("{}: {}", name(answer), counts.sum::<u64>())
        });
        let forms = FORMS.iter().zip(&self.counts).map(|(form, counts)| {
            let sum: u64 = counts.iter().flatten().sum();
            format!("{form} {sum}")
        });
        let seen = (1..9).map(|reason| format!("{reason}: {}", self.refused_for(reason)));
        let mut text = format!("{} events", self.events());
        let _ = write!(text, " ({}), answers ({})", listed(kinds), listed(answers));
        let _ = write!(text, ", asked ({}), reasons seen ({})", listed(forms), listed(seen));
        let (yes, no) = (self.compared_to(true), self.compared_to(false));
        let _ = write!(text, ", comparisons seen (true {yes}, false {no})");
        let _ = write!(text, ", caps seen ({})", counted(self.all_caps()));
        let _ = write!(text, ", order seen ({})", counted(self.all_shows()));
        let high: u64 = self.high.iter().flatten().sum();
        let fates = counted(self.all_fates());
        let _ = write!(text, ", priorities seen ({fates}), too high {high}");
        let crowded: u64 = self.crowded.iter().sum();
        let _ =
            write!(text, ", called by a running thread on a list that says 64 or more {crowded}");
        let _ = write!(text, ", tables sound {} broken {}", self.sound, self.broken);
        text
    }

    /// How often a WAKE_OP's comparison was seen to come out so.
    fn compared_to(&self, outcome: bool) -> u64 {
        let ways = (0..WAYS).filter(|&way| operations::outcome(way) == outcome);
        ways.flat_map(|way| self.compared.iter().map(move |counts| counts[way])).sum()
    }

    /// How often a reason was seen as the lowest.
    fn refused_for(&self, reason: u8) -> u64 {
        let sets = (0..SETS as Reasons).filter(|&set| reasons::lowest(set) == reason);
        sets.flat_map(|set| self.reasons.iter().map(move |counts| counts[set as usize])).sum()
    }
}

/// The counts of each kind, with the names that it has for them.
fn by_kind<const N: usize>(
    counts: &[[u64; N]; KINDS.len()],
    names: fn(Kind) -> &'static [&'static str],
) -> impl Iterator<Item = (String, u64)> + '_ {
    KINDS.iter().zip(counts).flat_map(move |(kind, counts)| {
        let named = names(kind).iter().zip(counts);
        named.map(move |(name, &count)| (format!("{kind}: {name}"), count))
    })
}

fn counted(parts: impl Iterator<Item = (String, u64)>) -> String {
    listed(parts.map(|(name, count)| format!("{name} {count}")))
}

fn listed(parts: impl Iterator<Item = String>) -> String {
    parts.collect::<Vec<_>>().join(", ")
}

fn name(answer: i64) -> String {
    match answer {
        SLEPT => "asleep".into(),
        SOME => "above 0".into(),
        NOBODY => "0 0 8".into(),
        number => number.to_string(),
    }
}
