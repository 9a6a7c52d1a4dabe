//! Request (iii) of document 02: -12 never comes, neither in a history nor on
//! tables that are full, nearly full, or say so falsely. The rules said another
//! way have no row for it, so that agreeing with them shows, too, that no other
//! answer hangs on it.

use std::collections::BTreeMap;

use super::{declared, Checks, Display};
use crate::generate::{edges, events, tables};
use crate::model::{Answer, Event, State, ENOMEM, THREADS, WORDS, WORDS_PER_PROCESS};
use crate::rng::Rng;
use crate::shorthand::{self as s, Who};

pub fn run(checks: &mut Checks) {
    histories(checks);
    nearly_full(checks);
    overfull(checks);
    damaged(checks);
}

/// What came of a lot of events.
#[derive(Default)]
struct Lot {
    /// How often each answer came, by the list's count before the event.
    answers: BTreeMap<(u64, String), u64>,
    /// The first event that was answered -12.
    provoked: Option<Event>,
    /// The first event that did other than the rules without -12 say.
    other: Option<Event>,
}

impl Lot {
    fn apply(&mut self, display: &mut Display, event: Event) -> Answer {
        let (report, state, words) = declared::outcome(&display.state, &display.words, &event);
        let count = display.state.count;
        let got = display.report(event);
        if got.answer == Answer::Number(ENOMEM) {
            self.provoked.get_or_insert(event);
        }
        if (got, &display.state, &display.words) != (report, &state, &words) {
            self.other.get_or_insert(event);
        }
        *self.answers.entry((count, got.answer.to_string())).or_insert(0) += 1;
        got.answer
    }

    /// A lot is worth trying only if it comes to where -12 might be.
    fn judge(self, checks: &mut Checks, what: &str, frequent: &[(u64, &str)]) {
        checks.equal(&format!("{what}: event answered -12"), self.provoked, None);
        checks.equal(&format!("{what}: event that does otherwise"), self.other, None);
        for &(count, answer) in frequent {
            let times = self.answers.get(&(count, answer.into())).copied().unwrap_or(0);
            let name = format!("{what}: {answer} at {count} is frequent, {times}");
            checks.holds(&name, times >= 50);
        }
    }
}

fn on(state: &State) -> Display {
    Display { state: state.clone(), words: vec![0; WORDS] }
}

fn thread(number: usize) -> Who {
    (number as u8 / 8, number as u8 % 8)
}

/// The first thread that runs; if none does, any will do.
fn awake(state: &State) -> usize {
    state.threads.iter().position(|thread| !thread.waiting).unwrap_or(0)
}

/// Histories from fresh tables, from any, and from tables with 60 to 64
/// sleepers.
fn histories(checks: &mut Checks) {
    let mut lot = Lot::default();
    for seed in 0..196 {
        let mut rng = Rng::new(seed ^ 0x1212);
        let mut display = match seed % 7 {
            0 => Display::fresh(),
            1 => on(&tables::sound(&mut rng)),
            more => on(&tables::with_sleepers(&mut rng, 58 + more as usize)),
        };
        for _ in 0..300 {
            let event = next(&mut rng, &display);
            lot.apply(&mut display, event);
        }
    }
    let frequent = [(63, "asleep"), (63, "-11"), (63, "-110"), (63, "-16"), (64, "-16"), (64, "1")];
    lot.judge(checks, "histories", &frequent);
}

/// The next event of a history whose list stays long: many good waits, and most
/// calls by a thread that runs, even where it is the only one.
fn next(rng: &mut Rng, display: &Display) -> Event {
    let number = awake(&display.state);
    if rng.percent(40) {
        let word = display.words[WORDS_PER_PROCESS * (number / 8)];
        return s::wait(thread(number), 0, word);
    }
    let mut event = events::next(rng, &display.state, &display.words);
    if let Event::Call(call) = &mut event {
        if rng.percent(80) {
            (call.process, call.index) = thread(number);
        }
    }
    event
}

/// Single events by every thread: with 60 to 63 asleep the others can sleep,
/// with 64 nobody can call.
fn nearly_full(checks: &mut Checks) {
    let mut rng = Rng::new(12);
    let mut lot = Lot::default();
    for round in 0..40 {
        let sleepers = 60 + round % 5;
        let state = tables::with_sleepers(&mut rng, sleepers);
        checks.holds("nearly full, sound", state.rules_hold());
        checks.equal("nearly full, count", state.count, sleepers as u64);
        for number in 0..THREADS {
            for event in edges::each_kind_by(thread(number)) {
                lot.apply(&mut on(&state), event);
            }
            let waits = state.threads[number].waiting;
            let want = if waits { Answer::Number(-16) } else { Answer::Asleep };
            let got = lot.apply(&mut on(&state), s::wait(thread(number), 4092, 0));
            checks.equal("nearly full, wait", got, want);
        }
        for _ in 0..200 {
            let event = events::next(&mut rng, &state, &[0; WORDS]);
            lot.apply(&mut on(&state), event);
        }
    }
    lot.judge(checks, "nearly full", &[(60, "asleep"), (63, "asleep"), (63, "-16"), (64, "-16")]);
}

/// A list that says 64 or more although the caller runs: -9, or 0, 0, 8 to a
/// query, and nothing changes.
fn overfull(checks: &mut Checks) {
    let mut lot = Lot::default();
    for running in 0..THREADS {
        checks.holds("63 are sound", tables::nearly_full(running).rules_hold());
        for state in tables::overfull(running) {
            checks.holds("overfull", state.count >= 64 && !state.threads[running].waiting);
            let mut display = on(&state);
            for event in edges::each_kind_by(thread(running)) {
                let query = matches!(event, Event::Query { .. });
                let want = if query { Answer::Panel(0, 0, 8) } else { Answer::Number(-9) };
                checks.equal("overfull, answer", lot.apply(&mut display, event), want);
            }
            checks.holds("overfull, unchanged", display.state == state);
        }
    }
    lot.judge(checks, "overfull", &[(64, "-9"), (65, "-9"), (u64::MAX, "-9")]);
}

/// One damage of tables with 63 or 64 sleepers, at random.
fn damaged(checks: &mut Checks) {
    let mut rng = Rng::new(1212);
    let mut lot = Lot::default();
    for _ in 0..2000 {
        let sleepers = rng.pick(&[63, 64]);
        let mut state = tables::with_sleepers(&mut rng, sleepers);
        damage(&mut rng, &mut state);
        // Of 63 the one that is awake, of 64 the one that the damage wakes.
        let callers = [awake(&state), rng.below(64) as usize];
        for caller in callers.map(thread) {
            for event in edges::each_kind_by(caller) {
                lot.apply(&mut on(&state), event);
            }
        }
        let event = events::next(&mut rng, &state, &[0; WORDS]);
        lot.apply(&mut on(&state), event);
    }
    lot.judge(checks, "damaged", &[(63, "-9"), (64, "-9"), (65, "-9"), (u64::MAX, "-9")]);
}

/// Sets the count, an entry of the list or a waiting flag to something; now and
/// then to what it was.
fn damage(rng: &mut Rng, state: &mut State) {
    let place = rng.below(64) as usize;
    let any = rng.u64();
    let counts = [60 + any % 10, 1 << 32, u64::MAX, state.count + (1 << 32), any];
    match rng.below(4) {
        0 => state.count = rng.pick(&counts),
        1 => state.list[place] = rng.pick(&[63, 64, 200, 255, any as u8]),
        2 => state.list[63] = any as u8,
        _ => state.threads[place].waiting ^= true,
    }
}
