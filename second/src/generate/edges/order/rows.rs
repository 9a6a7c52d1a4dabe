//! Seven sleepers at two words, and before them one of another process with the
//! highest priority: every command with caps that end before, at and after the last
//! sleeper of a word, and the events that take nobody by rank.

use super::{set, WHO};
use crate::generate::tables;
use crate::model::{Event, State, THREADS};
use crate::script::Script;
use crate::shorthand as s;

/// The priorities of seven sleepers, in the order in which they came, five at one
/// word and two at another: rising, falling, equal, mixed, and the highest last or
/// first.
const ROWS: &[[u8; 7]] = &[
    [1, 2, 3, 4, 5, 6, 7],
    [31, 30, 20, 10, 5, 1, 0],
    [9; 7],
    [0, 31, 0, 31, 16, 31, 1],
    [0, 0, 0, 0, 31, 0, 31],
    [31, 0, 0, 0, 0, 31, 0],
    [15, 16, 15, 16, 15, 16, 15],
];

pub fn add(script: &mut Script) {
    for row in ROWS {
        for event in calls() {
            set(script, &lined_up(row));
            script.event(event);
            script.dump();
        }
    }
    full_list(script);
}

/// Seven sleepers of process 0, the last two at 16, and before them one of process
/// 1 that has the highest priority.
fn lined_up(row: &[u8; 7]) -> State {
    let mut state = State::fresh();
    state.join(8, 8, u32::MAX, None);
    state.threads[8].priority = 31;
    for (place, (number, &priority)) in [3, 0, 6, 1, 5, 2, 4].into_iter().zip(row).enumerate() {
        let address = if place < 5 { 8 } else { 16 };
        let deadline = (place % 2 == 1).then_some(100 - place as u64);
        state.join(number, address, 1 + place as u32 % 3, deadline);
        state.threads[number].priority = priority;
    }
    state
}

/// Caps that end before, at and after the last sleeper of a word.
fn calls() -> Vec<Event> {
    let mut calls = Vec::new();
    for cap in [0, 1, 2, 4, 5, 6] {
        calls.push(s::wake(WHO, 8, cap));
        calls.push(s::wake_bitset(WHO, 8, cap, 2));
    }
    for caps in [(0, 1), (0, 3), (1, 1), (2, 2), (1, 9), (5, 1)] {
        calls.push(s::requeue(WHO, 8, 16, caps.0, caps.1));
        calls.push(s::cmp_requeue(WHO, 8, 16, caps, 0));
        calls.push(s::wake_op(WHO, 8, 16, caps, 0));
        calls.push(s::wake_op(WHO, 8, 8, caps, 0));
    }
    calls.extend([s::clock(95), s::clock(97), s::clock(100), s::interrupt((0, 6)), s::query(0)]);
    calls
}

/// On a list of 63 with all priorities, each twice.
fn full_list(script: &mut Script) {
    let mut state = tables::nearly_full(27);
    for number in 0..THREADS {
        state.threads[number].priority = (number * 7 % 32) as u8;
    }
    set(script, &state);
    script.event(s::requeue((3, 3), 8, 12, 1, 2));
    script.dump();
    script.event(s::wake((3, 3), 12, 2));
    script.dump();
}
