//! Checks of this program by itself: the cases of document 01, its sentences
//! one by one, the reasons, the signed WAKE_OP, the refusal that never comes, the
//! log in pieces, the priorities and the order of taking of document 02, round
//! trips, and random runs against the rules said once more in another way.

mod calls;
mod cuts;
mod declared;
mod histories;
mod layouts;
mod logs;
mod never;
mod operations;
mod order;
mod others;
mod pairs;
mod pieces;
mod priorities;
mod reasons;
mod replays;
mod scripts;
mod twelve;

use std::fmt::Debug;

use crate::log::{Cursor, Read, ENODATA};
use crate::model::{self, Answer, Event, Report, State, WORDS};
use crate::pieces::Ended;
use crate::replay;

/// Counts what held and prints what didn't.
#[derive(Default)]
pub struct Checks {
    pub passed: u64,
    pub failed: u64,
}

impl Checks {
    fn equal<T: PartialEq + Debug>(&mut self, what: &str, got: T, want: T) {
        if got == want {
            self.passed += 1;
        } else {
            self.failed += 1;
            println!("FAILED {what}: got {got:?}, want {want:?}");
        }
    }

    fn holds(&mut self, what: &str, got: bool) {
        self.equal(what, got, true);
    }
}

/// Tables and words to try events on.
#[derive(Clone)]
struct Display {
    state: State,
    words: Vec<u32>,
}

impl Display {
    fn fresh() -> Display {
        Display { state: State::fresh(), words: vec![0; WORDS] }
    }

    /// Fresh tables after some events.
    fn after(events: &[Event]) -> Display {
        let mut display = Display::fresh();
        for event in events {
            display.answer(*event);
        }
        display
    }

    fn report(&mut self, event: Event) -> Report {
        model::step(&mut self.state, &mut self.words, &event)
    }

    fn answer(&mut self, event: Event) -> Answer {
        self.report(event).answer
    }

    /// The answer as replays print it.
    fn text(&mut self, event: Event) -> String {
        self.answer(event).to_string()
    }

    /// The listed threads, in list order.
    fn listed(&self) -> Vec<u8> {
        self.state.list[..self.state.count as usize].to_vec()
    }
}

/// The events of a whole log in one go, and how it ends.
fn one_go(log: &[u8]) -> (Vec<Event>, Ended) {
    let mut cursor = Cursor { bytes: log, place: 0 };
    let mut events = Vec::new();
    loop {
        match cursor.read() {
            Read::Event(event) => events.push(event),
            Read::End => return (events, Ended::Clean),
            Read::Refused(ENODATA) => return (events, Ended::Cut),
            Read::Refused(_) => return (events, Ended::Unreadable),
        }
    }
}

fn text(bytes: &[u8]) -> String {
    String::from_utf8_lossy(bytes).into_owned()
}

/// What a replay prints for a log.
fn replayed(mut log: &[u8]) -> String {
    let mut out = Vec::new();
    match replay::run(&mut log, &mut out) {
        Ok(()) => text(&out),
        Err(error) => error.to_string(),
    }
}

pub fn run() -> Checks {
    let mut checks = Checks::default();
    twelve::run(&mut checks);
    calls::run(&mut checks);
    operations::run(&mut checks);
    others::run(&mut checks);
    reasons::run(&mut checks);
    logs::run(&mut checks);
    pieces::run(&mut checks);
    replays::run(&mut checks);
    layouts::run(&mut checks);
    scripts::run(&mut checks);
    cuts::run(&mut checks);
    histories::run(&mut checks);
    never::run(&mut checks);
    priorities::run(&mut checks);
    order::run(&mut checks);
    pairs::run(&mut checks);
    checks
}

#[cfg(test)]
mod tests {
    #[test]
    fn all_checks_hold() {
        assert_eq!(super::run().failed, 0);
    }
}
