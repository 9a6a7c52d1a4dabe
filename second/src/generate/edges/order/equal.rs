//! All priorities equal: arrival alone says who is taken, as it was before request
//! (vii). Every cap on a full list, and at both words of a requeue.

use super::{set, ALL, FALSE, TRUE};
use crate::generate::edges::sleepers;
use crate::generate::tables;
use crate::model::{Event, State};
use crate::script::Script;
use crate::shorthand::{self as s, Who};

pub fn add(script: &mut Script) {
    for (event, priority) in
        wakes().into_iter().chain(with_two_caps()).zip([0, 31, 7].iter().cycle())
    {
        let mut state = filled();
        state.threads.iter_mut().for_each(|thread| thread.priority = *priority);
        set(script, &state);
        script.event(event);
        script.dump();
    }
    moved(script);
    moved_twice(script);
}

/// The thread that 63 sleepers leave awake: of its process six sleep at 8, one of
/// them with the rare mask, and one at 12.
const WHO: Who = (3, 3);
/// Masks that most sleepers have, and one of many.
const COMMON: u32 = 3;
const RARE: u32 = 1 << 31;

/// A list of 63 sleepers, all processes mixed, nearly all at address 8.
fn filled() -> State {
    let mut state = State::fresh();
    for number in tables::mixed().take(63) {
        let address = if number % 8 == 5 { 12 } else { 8 };
        let mask = if number % 8 == 6 { RARE | COMMON } else { COMMON };
        state.join(number, address, mask, (number % 3 == 0).then_some(1000));
    }
    state
}

fn wakes() -> Vec<Event> {
    let mut wakes = Vec::new();
    for cap in [0, 1, 3, 6, 7, ALL] {
        wakes.push(s::wake(WHO, 8, cap));
        wakes.push(s::wake_bitset(WHO, 8, cap, RARE));
    }
    wakes.extend([s::wake_bitset(WHO, 8, 2, COMMON), s::wake(WHO, 16, 1)]);
    wakes
}

fn with_two_caps() -> Vec<Event> {
    let mut calls = Vec::new();
    for (cap, second_cap) in [(0, 0), (0, 2), (2, 0), (1, 2), (3, 3), (3, 4), (6, 1), (7, 7)] {
        let caps = (cap, second_cap);
        calls.push(s::requeue(WHO, 8, 12, cap, second_cap));
        calls.push(s::cmp_requeue(WHO, 8, 12, caps, 0));
        for val3 in [TRUE, FALSE] {
            calls.push(s::wake_op(WHO, 8, 8, caps, val3));
            calls.push(s::wake_op(WHO, 8, 12, caps, val3));
        }
    }
    calls.push(s::wake_op(WHO, 8, 8, (ALL, u64::from(ALL)), TRUE));
    calls
}

/// After a requeue those who moved stand at the list's end.
fn moved(script: &mut Script) {
    for (cap, second_cap) in [(0, 1), (0, 3), (1, 1), (1, 2), (2, 1), (3, 3)] {
        sleepers(script);
        script.event(s::requeue((0, 7), 8, 16, cap, second_cap));
        script.dump();
    }
}

/// And those of the target stand before them, until they move on.
fn moved_twice(script: &mut Script) {
    sleepers(script);
    for event in [
        s::cmp_requeue((0, 7), 8, 16, (0, 2), 0),
        s::requeue((0, 7), 16, 8, 0, 2),
        s::wake_op((0, 7), 8, 8, (1, 1), TRUE),
        s::wake((0, 7), 16, 1),
    ] {
        script.event(event);
        script.dump();
    }
}
