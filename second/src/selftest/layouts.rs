//! Tables and words as bytes.

use super::{Checks, Display};
use crate::generate::{events, tables};
use crate::layout::{self, TABLE_BYTES, WORD_BYTES};
use crate::model::{Answer, Event, State, Thread, WORDS};
use crate::rng::Rng;

pub fn run(checks: &mut Checks) {
    places(checks);
    round_trips(checks);
    lengths(checks);
    strange_bytes(checks);
    same_answers(checks);
}

/// One field after another at its place.
fn places(checks: &mut Checks) {
    let mut state = State::fresh();
    state.clock = 0x0807060504030201;
    state.count = 0x1817161514131211;
    state.list[1] = 42;
    let (uaddr, bitset, deadline) = (0x24232221, 0x34333231, 0x4847464544434241);
    let (last, priority) = (3, 0x51);
    state.threads[63] =
        Thread { waiting: true, uaddr, bitset, timed: true, deadline, last, priority };
    state.threads[0].priority = 31;
    let bytes = layout::encode(&state);
    checks.equal("clock", &bytes[0..8], &[1, 2, 3, 4, 5, 6, 7, 8]);
    checks.equal("count", bytes[8..16].first(), Some(&0x11));
    checks.equal("list", &bytes[16..18], &[255, 42]);
    checks.equal("waiting", &bytes[142..145], &[0, 1, 0]);
    checks.equal("timed", &bytes[206..209], &[0, 1, 0]);
    checks.equal("last", &bytes[270..273], &[0, 3, 0]);
    checks.equal("uaddr", &bytes[524..529], &[0x21, 0x22, 0x23, 0x24, 0]);
    checks.equal("bitset", &bytes[780..785], &[0x31, 0x32, 0x33, 0x34, 0]);
    checks.equal("deadline", &bytes[1288..1296], &[0x41, 0x42, 0x43, 0x44, 0x45, 0x46, 0x47, 0x48]);
    checks.equal("first priority", &bytes[1296..1298], &[31, 0]);
    checks.equal("last priority", &bytes[1358..], &[0, 0x51]);
    let mut words = vec![0; WORD_BYTES];
    let mut fresh = layout::encode(&State::fresh());
    checks.equal("store", layout::store(&mut fresh, &mut words, 7, 4092, 0x04030201), 0);
    checks.equal("word", &words[WORD_BYTES - 5..], &[0, 1, 2, 3, 4]);
}

fn round_trips(checks: &mut Checks) {
    let mut rng = Rng::new(3);
    for round in 0..500 {
        let mut state = tables::sound(&mut rng);
        if round % 2 == 0 {
            let breaks = [tables::RECORD_BREAKS, tables::PRIORITY_BREAKS].concat();
            let breaks = rng.pick(&breaks);
            state = tables::broken(state, breaks).unwrap_or_else(tables::base);
        }
        let bytes = layout::encode(&state);
        checks.holds("tables", layout::decode(&bytes) == Some(state));
    }
    let words: Vec<u32> = (0..WORDS).map(|_| rng.u32()).collect();
    let mut bytes = vec![0; WORD_BYTES];
    layout::encode_words(&words, &mut bytes);
    checks.holds("words", layout::decode_words(&bytes) == words);
}

/// The words' length is tested before the tables'.
fn lengths(checks: &mut Checks) {
    let fresh = layout::encode(&State::fresh());
    // 1,296 bytes were tables before there were priorities.
    for length in [0, 1, 1296, TABLE_BYTES - 1, TABLE_BYTES + 1] {
        let mut tables = vec![0; length];
        let mut words = vec![0; WORD_BYTES];
        checks.equal("tables' length", layout::clock(&mut tables, &mut words, 0), -9);
        checks.equal("query", layout::query(&tables, 0), (0, 0, 8));
        checks.equal("words first", layout::clock(&mut tables, &mut words[1..], 0), -6);
        let priority = layout::set_priority(&mut tables, &mut words, 8, 8, 32);
        checks.equal("tables' length", priority, -9);
    }
    for length in [0, WORD_BYTES - 4, WORD_BYTES - 1, WORD_BYTES + 1, WORD_BYTES + 4] {
        let mut tables = fresh.to_vec();
        let mut words = vec![0; length];
        checks.equal("words' length", layout::clock(&mut tables, &mut words, 5), -6);
        checks.holds("unchanged", tables == fresh);
    }
}

/// A byte that stands for nothing breaks the tables and stays where it is.
fn strange_bytes(checks: &mut Checks) {
    let fresh = layout::encode(&tables::base());
    let flags = [(80, 2), (100, 2), (143, 255), (144, 2), (207, 128), (208, 4), (271, 255)];
    // A high priority stands for something, but breaks a rule.
    for (place, byte) in flags.into_iter().chain([(1296, 32), (1297, 255), (1359, 64)]) {
        let mut tables = fresh;
        tables[place] = byte;
        let before = tables;
        let mut words = vec![0; WORD_BYTES];
        checks.equal("strange byte", layout::interrupt(&mut tables, &mut words, 9, 9), -9);
        checks.equal("strange byte", layout::query(&tables, 0), (0, 0, 8));
        checks.holds("unchanged", tables == before && words == vec![0; WORD_BYTES]);
    }
}

/// On bytes every event answers and leaves what it does on numbers.
fn same_answers(checks: &mut Checks) {
    for seed in 0..20 {
        let mut rng = Rng::new(seed);
        let mut display = Display::fresh();
        display.state = tables::sound(&mut rng);
        let mut tables = layout::encode(&display.state);
        let mut words = vec![0; WORD_BYTES];
        for _ in 0..100 {
            let event = events::next(&mut rng, &display.state, &display.words);
            let got = on_bytes(&mut tables, &mut words, &event);
            checks.equal("on bytes", got, display.answer(event));
            checks.holds("tables", tables == layout::encode(&display.state));
            checks.holds("words", layout::decode_words(&words) == display.words);
        }
    }
}

fn on_bytes(tables: &mut [u8], words: &mut [u8], event: &Event) -> Answer {
    let number = match *event {
        Event::Call(ref call) => layout::call(tables, words, call),
        Event::Store { process, address, value } => {
            layout::store(tables, words, process, address, value)
        }
        Event::Clock { time } => layout::clock(tables, words, time),
        Event::Interrupt { process, index } => layout::interrupt(tables, words, process, index),
        Event::SetPriority { process, index, priority } => {
            layout::set_priority(tables, words, process, index, priority)
        }
        Event::Query { process } => {
            let (bits, count, lowest) = layout::query(tables, process);
            return Answer::Panel(bits, count, lowest);
        }
    };
    if number == layout::ASLEEP {
        Answer::Asleep
    } else {
        Answer::Number(number)
    }
}
