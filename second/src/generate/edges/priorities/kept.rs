//! What a priority is kept through: falling asleep, each way for a sleep to end
//! or to move, and every refusal.

use crate::generate::edges::{each_kind_by, sleepers, their_waits};
use crate::model::{Event, WORDS};
use crate::script::Script;
use crate::shorthand::{self as s, Who};

const WHO: Who = (0, 7);
/// A priority for each sleeper, for the caller and for another thread that runs.
const GIVEN: &[(Who, u8)] =
    &[((0, 0), 31), ((1, 0), 7), ((0, 1), 16), ((0, 2), 1), ((0, 3), 30), (WHO, 9), ((7, 7), 12)];

pub fn add(script: &mut Script) {
    for event in each_kind_by(WHO).into_iter().chain(more()) {
        given_before(script);
        script.event(event);
        script.dump();
        given_asleep(script);
        script.event(event);
        script.dump();
    }
    one_life(script);
    moved_about(script);
    all_at_once(script);
}

fn give(script: &mut Script) {
    for &(who, priority) in GIVEN {
        script.event(s::set_priority(who, priority));
    }
}

fn given_before(script: &mut Script) {
    script.fresh();
    give(script);
    script.events(&their_waits());
}

fn given_asleep(script: &mut Script) {
    sleepers(script);
    give(script);
}

/// Each end of each sleep, moves of some and of all, and refusals.
fn more() -> Vec<Event> {
    vec![
        s::wake(WHO, 8, 2),
        s::wake(WHO, 8, 2147483647),
        s::wake_bitset(WHO, 8, 2, 2),
        s::requeue(WHO, 8, 16, 0, 3),
        s::requeue(WHO, 8, 16, 2, 1),
        s::cmp_requeue(WHO, 8, 16, (1, 2), 0),
        s::cmp_requeue(WHO, 16, 8, (0, 1), 0),
        s::wake_op(WHO, 8, 16, (2, 1), 0),
        s::wake_op(WHO, 8, 8, (1, 1), 0),
        s::clock(999),
        s::clock(1000),
        s::clock(2000),
        s::interrupt((0, 0)),
        s::interrupt((0, 1)),
        s::interrupt((0, 2)),
        s::interrupt((0, 3)),
        s::interrupt((1, 0)),
        s::interrupt((0, 8)),
        s::wait(WHO, 8, 1),
        s::wait_for(WHO, 8, 0, 0),
        s::wait((0, 0), 8, 0),
        s::wake(WHO, 9, 1),
        s::requeue(WHO, 8, 8, 1, 1),
        s::wake_op(WHO, 8, 16, (1, 1), 0x5000_0000),
        s::store(0, 4096, 1),
        s::set_priority((0, 0), 32),
        s::set_priority((0, 8), 1),
    ]
}

/// One thread through sleeps of every sort, with another priority for each; then
/// through the same with the last one.
fn one_life(script: &mut Script) {
    let (who, other) = ((2, 3), (2, 0));
    let lives: [[Event; 2]; 7] = [
        [s::wait(who, 8, 0), s::wake(other, 8, 1)],
        [s::wait_bitset(who, 8, 0, 4), s::wake_bitset(other, 8, 1, 4)],
        [s::wait_for(who, 8, 0, 10), s::clock(10)],
        [s::wait_until(who, 8, 0, 1, 20), s::clock(20)],
        [s::wait(who, 8, 0), s::interrupt(who)],
        [s::wait(who, 8, 0), s::requeue(other, 8, 16, 1, 0)],
        [s::wait(who, 8, 0), s::wake_op(other, 16, 8, (1, 1), 0)],
    ];
    script.fresh();
    for (priority, life) in (25..).zip(lives) {
        script.event(s::set_priority(who, priority));
        for event in life {
            script.event(event);
            script.dump();
        }
    }
    for life in lives {
        script.events(&life);
        script.dump();
    }
}

/// A sleeper that moves to and fro, with another priority at each word.
fn moved_about(script: &mut Script) {
    given_asleep(script);
    for (from, to, priority) in [(8, 16, 3), (16, 8, 4), (8, 20, 0), (20, 4092, 31)] {
        script.event(s::requeue(WHO, from, to, 0, 9));
        script.dump();
        script.event(s::set_priority((0, 2), priority));
        script.event(s::cmp_requeue(WHO, to, from, (0, 1), 0));
        script.dump();
        script.event(s::requeue(WHO, from, to, 0, 9));
        script.dump();
    }
    script.events(&[s::clock(1000), s::wake(WHO, 4092, 1), s::interrupt((0, 3))]);
    script.dump();
}

/// All 64 with a priority, all asleep, and all awake again in three ways. A memory
/// of a wrong length changes none of it.
fn all_at_once(script: &mut Script) {
    script.fresh();
    let threads = || (0..64).map(|number| ((number / 8, number % 8), number));
    for (who, number) in threads() {
        script.event(s::set_priority(who, number % 32));
        script.event(match number % 3 {
            0 => s::wait(who, 8, 0),
            _ => s::wait_for(who, 8, 0, 10),
        });
    }
    script.dump();
    script.event(s::clock(10));
    script.lend(WORDS - 1);
    script.events(&[s::set_priority((0, 0), 5), s::interrupt((0, 0))]);
    script.lend(WORDS);
    script.dump();
    for ((process, index), number) in threads().filter(|(_, number)| number % 3 == 0) {
        // The thread next to it has timed out.
        let next = if index == 7 { 6 } else { index + 1 };
        script.event(match number % 2 {
            0 => s::interrupt((process, index)),
            _ => s::wake((process, next), 8, 1),
        });
    }
    script.dump();
}
