//! Both kernels on the same tables and words: one event at a time, and all
//! that it leaves compared.

use std::fmt::Write;

use second::bytes::u32_at;
use second::layout::{self, TABLE_BYTES};
use second::model::{Event, State, PRIVATE_BIT, WAKE_OP, WORDS, WORDS_PER_PROCESS};
use second::rng::Rng;

use crate::caps;
use crate::events;
use crate::host;
use crate::operations::Shown;
use crate::order::{self, Shows};
use crate::priorities::{self, Fates};
use crate::room::Room;

/// The answer's number and its reason, as both sides gave them.
#[derive(Clone, Copy)]
pub struct Given {
    pub number: i64,
    pub reason: u8,
}

pub struct Pair {
    /// The second kernel's side: what the tables stand for, if anything, their
    /// bytes now and before the last event, and the words.
    pub state: Option<State>,
    bytes: Vec<u8>,
    before: Vec<u8>,
    pub words: Vec<u32>,
    /// The words that the last event named, by number, as they were before it.
    named: [Option<(usize, u32)>; 2],
    /// The library's side.
    tables: Room,
    lent: Room,
    /// The bytes for the report of the next event, what is to stand there
    /// after it, and whether it is asked for one.
    report: Room,
    due_report: Vec<u8>,
    reports: bool,
    /// Compare all words after every event, not only those near the event's.
    pub careful: bool,
}

impl Pair {
    pub fn new(careful: bool) -> Pair {
        Pair {
            state: None,
            bytes: Vec::new(),
            before: Vec::new(),
            words: vec![0; WORDS],
            named: [None; 2],
            tables: Room::new(),
            lent: Room::new(),
            report: Room::new(),
            due_report: Vec::new(),
            reports: false,
            careful,
        }
    }

    /// Gives both sides words. The library is lent `length` bytes of them, at
    /// an address that is `shift` modulo 16.
    pub fn set_words(&mut self, rng: &mut Rng, length: usize, shift: usize) {
        events::fill_words(rng, &mut self.words);
        self.lent.lay_out(length, shift);
        for (place, word) in self.lent.lend().chunks_mut(4).zip(&self.words) {
            place.copy_from_slice(&word.to_le_bytes()[..place.len()]);
        }
    }

    /// Gives both sides tables as bytes, of any length.
    pub fn set_tables(&mut self, bytes: &[u8], shift: usize) {
        self.state = layout::decode(bytes);
        self.bytes.clear();
        self.bytes.extend_from_slice(bytes);
        self.tables.lay_out(bytes.len(), shift);
        self.tables.lend().copy_from_slice(bytes);
    }

    /// How the next event is asked: with so many bytes for the report, which
    /// hold anything, or by its number alone.
    pub fn set_report(&mut self, rng: &mut Rng, length: Option<usize>) {
        self.reports = length.is_some();
        self.report.lay_out(length.unwrap_or(0), rng.below(16) as usize);
        self.report.lend().fill_with(|| rng.u64() as u8);
        self.due_report.clear();
        self.due_report.extend_from_slice(self.report.get());
    }

    /// Fresh tables laid down by the library, in a room of any length.
    pub fn fresh(&mut self, length: usize, shift: usize) -> Result<i64, String> {
        self.set_tables(&vec![0x5A; length], shift);
        self.before = self.bytes.clone();
        let mut due = -9;
        if length == TABLE_BYTES {
            due = 0;
            self.state = Some(State::fresh());
            self.bytes = layout::encode(&State::fresh()).to_vec();
        }
        let found = host::fresh(self.tables.lend());
        if found == due && self.tables_agree() {
            return Ok(due);
        }
        Err(self.difference("vradomil_fresh", due, found))
    }

    /// One event. Gives what was answered, or a text that shows the difference.
    pub fn step(&mut self, event: &Event) -> Result<Given, String> {
        let lent = self.lent.get().len();
        self.named = places(event).map(|place| place.map(|number| (number, self.words[number])));
        let report = layout::step(self.state.as_mut(), lent, &mut self.words, event);
        let due = layout::number(report.answer);
        let found = self.ask(event);
        if let Some(reason) = self.due_report.first_mut() {
            *reason = report.reason;
        }
        std::mem::swap(&mut self.before, &mut self.bytes);
        self.bytes.resize(self.before.len(), 0);
        match (&self.state, self.bytes.first_chunk_mut()) {
            (Some(state), Some(bytes)) => layout::encode_into(state, bytes),
            _ => self.bytes.copy_from_slice(&self.before),
        }
        let words_agree =
            if self.careful { self.words_agree() } else { self.words_near_agree(event) };
        if found == due && self.report_agrees() && self.tables_agree() && words_agree {
            return Ok(Given { number: due, reason: report.reason });
        }
        Err(self.difference(&format!("{event:?}"), due, found))
    }

    /// What the last event, answered with a count, shows if it is a WAKE_OP.
    pub fn shown(&self, event: &Event) -> Option<Shown> {
        match (event, self.named[1]) {
            (Event::Call(call), Some((_, old))) if call.op & !PRIVATE_BIT == WAKE_OP => {
                Shown::of(call, old, &self.before, &self.bytes)
            }
            _ => None,
        }
    }

    /// How the last event, answered with a count, used up its caps.
    pub fn caps_end(&self, event: &Event) -> Option<usize> {
        match event {
            Event::Call(call) => caps::end(call, &self.before, &self.bytes),
            _ => None,
        }
    }

    /// Whether the last event, not refused, took sleepers in their order.
    pub fn order_kept(&self, event: &Event) -> bool {
        match event {
            Event::Call(call) => order::is_kept(call, &self.before, &self.bytes),
            _ => true,
        }
    }

    /// What the last event, not refused, shows of that order.
    pub fn order_shown(&self, event: &Event) -> Shows {
        match event {
            Event::Call(call) => order::shown(call, &self.before, &self.bytes),
            _ => Shows::default(),
        }
    }

    /// Whether the last event left all the priorities that it had to leave.
    pub fn priorities_kept(&self, event: &Event, number: i64) -> bool {
        priorities::are_kept(event, number, &self.before, &self.bytes)
    }

    /// What the last event, not refused, did to threads that have a priority.
    pub fn fates(&self, event: &Event) -> Fates {
        priorities::fates_of(event, &self.before, &self.bytes)
    }

    fn ask(&mut self, event: &Event) -> i64 {
        let (tables, words) = (self.tables.lend(), self.lent.lend());
        if self.reports {
            host::step_report(tables, words, event, self.report.lend())
        } else {
            host::step(tables, words, event)
        }
    }

    fn report_agrees(&self) -> bool {
        self.report.get() == self.due_report && self.report.guards_hold()
    }

    fn tables_agree(&self) -> bool {
        self.tables.get() == self.bytes && self.tables.guards_hold()
    }

    /// All words that are lent, and the bytes around them.
    pub fn words_agree(&self) -> bool {
        self.first_other_word().is_none() && self.lent.guards_hold()
    }

    fn first_other_word(&self) -> Option<usize> {
        let words = self.lent.get().chunks_exact(4).zip(&self.words);
        words.zip(0..).find(|((lent, word), _)| u32_at(lent, 0) != **word).map(|(_, at)| at)
    }

    /// The words at the event's addresses and their neighbours, in the process
    /// of the event and the one after it.
    fn words_near_agree(&self, event: &Event) -> bool {
        let lent = self.lent.get();
        places(event).into_iter().flatten().all(|place| {
            [WORDS - 1, 0, 1, WORDS_PER_PROCESS].into_iter().all(|step| {
                let number = (place + step) % WORDS;
                lent.len() < 4 * number + 4 || u32_at(lent, 4 * number) == self.words[number]
            })
        })
    }

    /// All that is needed to see a difference again.
    fn difference(&self, event: &str, due: i64, found: i64) -> String {
        let mut text = format!("event: {event}\nwords lent: {} bytes\n", self.lent.get().len());
        for (number, word) in self.named.into_iter().flatten() {
            let _ = writeln!(text, "word {number} before: {word:#x}");
        }
        let _ = write!(text, "tables before ({} bytes):", self.before.len());
        for (at, byte) in self.before.iter().enumerate() {
            let _ = if at % 64 == 0 { write!(text, "\n{at:5}: ") } else { Ok(()) };
            let _ = write!(text, "{byte:02x}");
        }
        let _ = write!(text, "\nanswer: second {due}, library {found}\n");
        if !self.report_agrees() {
            let (due, found) = (&self.due_report, self.report.get());
            let _ = writeln!(text, "report: second {due:?}, library {found:?}, or bytes around it");
        }
        for (at, (a, b)) in self.bytes.iter().zip(self.tables.get()).enumerate() {
            if a != b {
                let _ = writeln!(text, "tables differ at {at}: second {a:02x}, library {b:02x}");
            }
        }
        if let Some(at) = self.first_other_word() {
            let _ = writeln!(text, "words differ at word {at}: second {:08x}", self.words[at]);
        }
        if !self.tables.guards_hold() || !self.lent.guards_hold() {
            text.push_str("bytes outside the tables or the words were changed\n");
        }
        text
    }
}

/// Which words an event names.
fn places(event: &Event) -> [Option<usize>; 2] {
    let place = |process: u8, address: u32| {
        Some(
            WORDS_PER_PROCESS * (process as usize % 8) + (address / 4) as usize % WORDS_PER_PROCESS,
        )
    };
    match *event {
        Event::Call(ref call) => {
            [place(call.process, call.uaddr), place(call.process, call.uaddr2)]
        }
        Event::Store { process, address, .. } => [place(process, address), None],
        _ => [None, None],
    }
}
