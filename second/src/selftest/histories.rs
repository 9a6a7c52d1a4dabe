//! Random histories: each event against the rules said another way, and
//! demand 3, that no other process can be noticed.

use std::collections::BTreeMap;

use super::{declared, Checks, Display};
use crate::generate::{events, tables};
use crate::model::{Call, Event, Report, THREADS_PER_PROCESS, WAKE_OP, WORDS, WORDS_PER_PROCESS};
use crate::rng::Rng;

pub fn run(checks: &mut Checks) {
    for seed in 0..200 {
        against_declared(checks, seed);
    }
    for seed in 0..200 {
        isolation(checks, seed);
    }
    frequent(checks);
    frequent_comparisons(checks);
}

/// Whole outcomes, from fresh tables and from tables at random.
fn against_declared(checks: &mut Checks, seed: u64) {
    let mut rng = Rng::new(seed);
    let mut display = Display::fresh();
    if seed % 4 != 0 {
        display.state = tables::sound(&mut rng);
    }
    if seed % 20 == 7 {
        display.words = vec![0; WORDS - 1];
    }
    for _ in 0..200 {
        let event = events::next(&mut rng, &display.state, &display.words);
        let want = declared::outcome(&display.state, &display.words, &event);
        let got = display.report(event);
        checks.equal(&format!("declared report, {event:?}"), got, want.0);
        checks.holds("declared tables", display.state == want.1);
        checks.holds("declared words", display.words == want.2);
        checks.holds("rules hold", display.state.rules_hold());
    }
}

/// Whether an event is struck for a process: it names another one.
fn struck(event: &Event, process: u8) -> bool {
    match *event {
        Event::Call(call) => call.process != process,
        Event::Store { process: named, .. } => named != process,
        Event::Interrupt { process: named, .. } => named != process,
        Event::SetPriority { process: named, .. } => named != process,
        Event::Query { process: named } => named != process,
        Event::Clock { .. } => false,
    }
}

/// Two histories that differ only in what others do.
fn isolation(checks: &mut Checks, seed: u64) {
    let mut rng = Rng::new(seed ^ 0xabcd);
    let process = rng.pick(&[0, 1, 7, 3]);
    let mut first = strangers_words(&mut rng, process);
    let mut second = strangers_words(&mut rng, process);
    let mut kept = Vec::new();
    let mut first_reports = Vec::new();
    for _ in 0..300 {
        let event = events::next(&mut rng, &first.state, &first.words);
        let report = first.report(event);
        if !struck(&event, process) {
            kept.push(event);
            note(&mut first_reports, &event, report);
        }
    }
    let mut second_reports = Vec::new();
    for event in &kept {
        others_act(&mut rng, &mut second, process);
        let report = second.report(*event);
        note(&mut second_reports, event, report);
    }
    others_act(&mut rng, &mut second, process);
    checks.holds("demand 3, reports", first_reports == second_reports);
    checks.holds("demand 3, end", view(&first, process) == view(&second, process));
}

/// A clock event's count is no process's answer.
fn note(reports: &mut Vec<Report>, event: &Event, report: Report) {
    if !matches!(event, Event::Clock { .. }) {
        reports.push(report);
    }
}

/// Words 0 for one process and anything for the others.
fn strangers_words(rng: &mut Rng, process: u8) -> Display {
    let mut display = Display::fresh();
    for (number, word) in display.words.iter_mut().enumerate() {
        if number / WORDS_PER_PROCESS != process as usize {
            *word = rng.below(3) as u32;
        }
    }
    display
}

fn others_act(rng: &mut Rng, display: &mut Display, process: u8) {
    for _ in 0..rng.below(6) {
        let event = events::next(rng, &display.state, &display.words);
        if struck(&event, process) {
            display.answer(event);
        }
    }
}

type View = (Vec<u32>, String, Vec<u8>);

/// A process's words, thread records and the order of its sleepers.
fn view(display: &Display, process: u8) -> View {
    let p = process as usize;
    let own = THREADS_PER_PROCESS * p..THREADS_PER_PROCESS * (p + 1);
    let words = display.words[WORDS_PER_PROCESS * p..WORDS_PER_PROCESS * (p + 1)].to_vec();
    let mut order = display.listed();
    order.retain(|&entry| own.contains(&(entry as usize)));
    (words, format!("{:?}", &display.state.threads[own]), order)
}

/// The histories are worth running only if each answer and each reason comes
/// up.
fn frequent(checks: &mut Checks) {
    let mut rng = Rng::new(99);
    let mut display = Display::fresh();
    let mut seen = BTreeMap::new();
    let mut reasons = [0; 9];
    for round in 0..20000 {
        if round % 500 == 0 {
            display.state = tables::sound(&mut rng);
        }
        let event = events::next(&mut rng, &display.state, &display.words);
        let report = display.report(event);
        *seen.entry(report.answer.to_string()).or_insert(0) += 1;
        reasons[report.reason as usize] += 1;
    }
    for answer in ["asleep", "-3", "-16", "-38", "-22", "-14", "-11", "-110", "0", "1", "2", "3"] {
        let times = seen.get(answer).copied().unwrap_or(0);
        checks.holds(&format!("{answer} is frequent, {times}"), times >= 50);
    }
    for (reason, times) in reasons.into_iter().enumerate() {
        checks.holds(&format!("reason {reason} is frequent, {times}"), times >= 50);
    }
}

/// The same of WAKE_OP's comparisons: each goes both ways with old words and
/// cmpargs of each sign. Where the signs differ only one way can be, so they
/// are six cases for each comparison.
fn frequent_comparisons(checks: &mut Checks) {
    let mut rng = Rng::new(100);
    let mut display = Display::fresh();
    let mut seen = BTreeMap::new();
    for round in 0..200_000 {
        if round % 500 == 0 {
            display.state = tables::sound(&mut rng);
        }
        let event = events::next(&mut rng, &display.state, &display.words);
        if let Some(comparison) = shown_comparison(&display, &event) {
            *seen.entry(comparison).or_insert(0) += 1;
        }
        display.answer(event);
    }
    checks.equal("cases of comparisons", seen.len(), 36);
    for (comparison, times) in seen {
        checks.holds(&format!("{comparison:?} is frequent, {times}"), times >= 10);
    }
}

/// cmp, whether the old word and cmparg are negative, and the outcome: of a
/// WAKE_OP that the opposite comparison would give another answer.
fn shown_comparison(display: &Display, event: &Event) -> Option<(u32, bool, bool, bool)> {
    let Event::Call(call) = *event else {
        return None;
    };
    if call.op & 127 != WAKE_OP {
        return None;
    }
    let cmp = call.val3 >> 24 & 15;
    let opposite = *[1, 0, 5, 4, 3, 2].get(cmp as usize)?;
    let turned = Call { val3: call.val3 & !(15 << 24) | opposite << 24, ..call };
    let answers = [call, turned].map(|call| display.clone().answer(Event::Call(call)));
    if answers[0] == answers[1] {
        return None;
    }
    // Nothing refuses this call, so the word is there.
    let old = display.words[WORDS_PER_PROCESS * call.process as usize + call.uaddr2 as usize / 4];
    let truth = declared::compares_true(old, call.val3);
    Some((cmp, old > 2147483647, call.val3 % 4096 > 2047, truth))
}
