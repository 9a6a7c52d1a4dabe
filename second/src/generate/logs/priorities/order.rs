//! Short logs in which later answers tell whom a wake or a requeue took: an interrupt
//! answers 1 for a sleeper and 0 for a thread that runs.

use super::of;
use crate::model::Event;
use crate::shorthand::{self as s, Who};

const WHO: Who = (3, 7);

pub fn edges() -> Vec<Vec<u8>> {
    let cases = [
        by_wakes(),
        by_masks(),
        by_requeue(),
        by_wake_op(),
        set_asleep(),
        with_strangers(),
        with_equals(),
    ];
    cases.map(|events| of(&events)).to_vec()
}

/// Four of process 3 go to sleep at 8: low, high, low, higher.
fn four() -> Vec<Event> {
    let mut events = Vec::new();
    for (index, priority) in [(2, 4), (0, 30), (3, 4), (1, 31)] {
        events.push(s::set_priority((3, index), priority));
        events.push(s::wait_bitset((3, index), 8, 0, 1 << index));
    }
    events
}

fn interrupts() -> [Event; 4] {
    [0, 1, 2, 3].map(|index| s::interrupt((3, index)))
}

/// Four, some events, and then who of them still sleeps.
fn told(between: &[Event]) -> Vec<Event> {
    [&four()[..], between, &interrupts()].concat()
}

fn by_wakes() -> Vec<Event> {
    told(&[s::wake(WHO, 8, 0), s::wake(WHO, 8, 1), s::interrupt((3, 0)), s::wake(WHO, 8, 1)])
}

/// The highest doesn't match.
fn by_masks() -> Vec<Event> {
    told(&[s::wake_bitset(WHO, 8, 1, 0b1101), s::wake_bitset(WHO, 8, 1, 0b1100)])
}

/// Those who move are taken one by one at their new word, where one sleeps already,
/// with equal priorities, so that the list's order shows.
fn by_requeue() -> Vec<Event> {
    let equal = [0, 2, 3, 4].map(|index| s::set_priority((3, index), 9));
    let moves = [s::wait((3, 4), 16, 0), s::cmp_requeue(WHO, 8, 16, (1, 2), 0)];
    told(&[&moves[..], &equal, &[s::wake(WHO, 16, 2), s::interrupt((3, 4))]].concat())
}

/// One at each word, then two at one.
fn by_wake_op() -> Vec<Event> {
    told(&[
        s::set_priority((3, 5), 1),
        s::wait((3, 4), 16, 0),
        s::wait((3, 5), 16, 0),
        s::wake_op(WHO, 8, 16, (1, 1), 0),
        s::interrupt((3, 4)),
        s::wake_op(WHO, 8, 8, (1, 1), 0),
    ])
}

fn set_asleep() -> Vec<Event> {
    told(&[s::set_priority((3, 3), 31), s::set_priority((3, 1), 0), s::wake(WHO, 8, 2)])
}

/// Another process's thread at the same address, above them all.
fn with_strangers() -> Vec<Event> {
    told(&[
        s::set_priority((4, 0), 31),
        s::wait((4, 0), 8, 0),
        s::set_priority((3, 1), 3),
        s::wake(WHO, 8, 1),
        s::interrupt((4, 0)),
    ])
}

/// The two low ones are left, and the one that came first goes first.
fn with_equals() -> Vec<Event> {
    told(&[s::wake(WHO, 8, 2), s::wake(WHO, 8, 1)])
}
