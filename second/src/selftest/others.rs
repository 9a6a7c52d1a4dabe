//! Sentences of document 01 about the tables, stores, the clock, interrupts
//! and panel queries.

use super::{Checks, Display};
use crate::generate::tables;
use crate::model::{Answer, State, Thread, INTERRUPTED, NO_ENTRY, WORDS};
use crate::rng::Rng;
use crate::shorthand as s;

pub fn run(checks: &mut Checks) {
    fresh(checks);
    broken_rules(checks);
    stores(checks);
    clocks(checks);
    interrupts(checks);
    queries(checks);
    memory_lengths(checks);
}

fn fresh(checks: &mut Checks) {
    let state = State::fresh();
    checks.equal("fresh clock and count", (state.clock, state.count), (0, 0));
    checks.holds("fresh list", state.list.iter().all(|&entry| entry == NO_ENTRY));
    checks.holds("fresh threads", state.threads.iter().all(|t| *t == Thread::running(0, 0)));
    checks.holds("fresh is sound", state.rules_hold());
}

/// Sound tables stay sound, and every break breaks them: -9 from each event
/// that takes words, 0, 0, 8 from a query, nothing changed.
fn broken_rules(checks: &mut Checks) {
    checks.holds("base is sound", tables::base().rules_hold());
    let mut rng = Rng::new(1);
    let breaks =
        [tables::LIST_BREAKS, tables::RECORD_BREAKS, tables::LAST_BREAKS, tables::PRIORITY_BREAKS]
            .concat();
    let events = [
        s::store(8, 1, 1),
        s::clock(0),
        s::interrupt((8, 8)),
        s::set_priority((8, 8), 32),
        s::set_priority((0, 0), 31),
        s::wait((8, 8), 1, 1),
    ];
    for round in 0..100 {
        let sound = if round == 0 { tables::base() } else { tables::sound(&mut rng) };
        checks.holds("sound", sound.rules_hold());
        for (which, &one) in breaks.iter().enumerate() {
            let Some(state) = tables::broken(sound.clone(), one) else {
                continue;
            };
            checks.holds(&format!("break {which}"), !state.rules_hold());
            let mut display = Display { state: state.clone(), words: vec![0; WORDS] };
            for event in events {
                checks.equal("broken", display.text(event), "-9".into());
            }
            checks.equal("broken", display.text(s::query(0)), "0 0 8".into());
            checks.holds("unchanged", display.state == state);
        }
    }
}

fn stores(checks: &mut Checks) {
    let mut display = Display::after(&[s::wait((7, 1), 4092, 0)]);
    let before = display.state.clone();
    for (event, want) in [
        (s::store(7, 4092, 6), "0"),
        (s::store(8, 4097, 6), "-3"),
        (s::store(7, 4097, 6), "-22"),
        (s::store(7, 4096, 6), "-14"),
        (s::store(7, u32::MAX - 3, 6), "-14"),
    ] {
        checks.equal("store", display.text(event), want.into());
    }
    checks.holds("wakes nobody", display.state == before);
    checks.equal("last word", display.words[WORDS - 1], 6);
    checks.equal("one word", display.words.iter().filter(|&&word| word != 0).count(), 1);
}

fn clocks(checks: &mut Checks) {
    let mut display = Display::after(&[
        s::wait_until((0, 0), 8, 0, 1, 20),
        s::wait((1, 0), 8, 0),
        s::wait_until((2, 0), 8, 0, 1, 10),
        s::wait_until((3, 0), 8, 0, 1, 21),
    ]);
    for (time, want) in [(9, "0"), (9, "0"), (8, "-22"), (20, "2"), (20, "0"), (u64::MAX, "1")] {
        checks.equal("clock", display.text(s::clock(time)), want.into());
    }
    checks.equal("no deadline stays", display.listed(), vec![8]);
    checks.equal("the last clock", display.text(s::clock(u64::MAX - 1)), "-22".into());
}

fn interrupts(checks: &mut Checks) {
    let mut display = Display::after(&[s::wait((0, 0), 8, 0), s::wait((1, 0), 8, 0)]);
    for (who, want) in [((0, 8), "-3"), ((8, 0), "-3"), ((0, 1), "0"), ((0, 0), "1"), ((0, 0), "0")]
    {
        checks.equal("interrupt", display.text(s::interrupt(who)), want.into());
    }
    checks.equal("interrupted", display.state.threads[0], Thread::running(INTERRUPTED, 0));
    checks.equal("the other", display.listed(), vec![8]);
}

fn queries(checks: &mut Checks) {
    let sleepers = [s::wait((3, 6), 8, 0), s::wait((3, 2), 12, 0), s::wait((4, 0), 8, 0)];
    let mut display = Display::after(&sleepers);
    for (process, want) in [(3, "68 2 2"), (4, "1 1 0"), (0, "0 0 8"), (8, "0 0 8"), (255, "0 0 8")]
    {
        checks.equal("query", display.text(s::query(process)), want.into());
    }
    display.words.clear();
    checks.equal("takes no words", display.answer(s::query(3)), Answer::Panel(68, 2, 2));
}

fn memory_lengths(checks: &mut Checks) {
    for length in [0, WORDS - 1, WORDS + 1] {
        let mut state = State::fresh();
        state.count = 65;
        let mut display = Display { state, words: vec![0; length] };
        let set_priority = s::set_priority((9, 9), 32);
        for event in [
            s::wait((9, 9), 1, 1),
            s::store(9, 1, 1),
            s::clock(0),
            s::interrupt((9, 9)),
            set_priority,
        ] {
            checks.equal("memory length", display.text(event), "-6".into());
        }
    }
}
