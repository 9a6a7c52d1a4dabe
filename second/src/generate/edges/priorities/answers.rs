//! The event that sets a priority: its arguments at their edges, and that it
//! changes one priority and nothing else.

use crate::generate::edges::sleepers;
use crate::generate::events::EDGE_PRIORITIES;
use crate::script::Script;
use crate::shorthand::{self as s, Who};

/// Threads that run, and sleepers without a deadline and with each sort of one.
const TARGETS: &[Who] = &[(0, 7), (7, 7), (0, 0), (1, 0), (0, 2), (0, 3)];

pub fn add(script: &mut Script) {
    edges(script);
    every_value(script);
    numbers(script);
    again(script);
    another_process(script);
}

/// What is refused leaves the priority before it.
fn edges(script: &mut Script) {
    for &who in TARGETS {
        sleepers(script);
        for &priority in EDGE_PRIORITIES {
            script.event(s::set_priority(who, priority));
            script.dump();
        }
    }
}

/// Up and down again, of a thread that runs and of one that sleeps.
fn every_value(script: &mut Script) {
    sleepers(script);
    for priority in (0..=255).chain((0..=255).rev()) {
        script.events(&[s::set_priority((0, 7), priority), s::set_priority((0, 0), priority)]);
        if matches!(priority, 20 | 31 | 255) {
            script.dump();
        }
    }
    script.dump();
}

/// Inside and outside the eight by eight: (0, 8) has the number of a sleeper,
/// (1, 0), and -3 comes before -22.
fn numbers(script: &mut Script) {
    let numbers = [0, 1, 7, 8, 9, 63, 64, 127, 128, 255];
    for process in numbers {
        sleepers(script);
        for index in numbers {
            for priority in [31, 32, 255, 1] {
                script.event(s::set_priority((process, index), priority));
            }
        }
        script.dump();
    }
}

/// The last one counts, a refused one doesn't, and with 0 a thread that has never
/// slept is as at the start.
fn again(script: &mut Script) {
    let who = (3, 4);
    for asleep in [false, true] {
        script.fresh();
        if asleep {
            script.event(s::wait(who, 4092, 0));
        }
        for priority in [5, 5, 9, 40, 0, 0, 31, 255, 30, 0, 1] {
            script.event(s::set_priority(who, priority));
            script.dump();
        }
        script.events(&[s::interrupt(who), s::set_priority(who, 0)]);
        script.dump();
    }
}

/// With and without priorities in other processes all else goes the same way.
fn another_process(script: &mut Script) {
    for others in [&[][..], &[((1, 0), 31), ((1, 7), 30), ((7, 0), 29), ((2, 2), 1)]] {
        sleepers(script);
        for &(who, priority) in others {
            script.event(s::set_priority(who, priority));
        }
        script.dump();
        script.events(&[
            s::wake((0, 7), 8, 1),
            s::query(0),
            s::query(1),
            s::cmp_requeue((0, 7), 8, 16, (0, 1), 0),
            s::wake((1, 7), 8, 1),
            s::wake_op((0, 7), 8, 16, (1, 1), 0x1000_1000),
            s::clock(1000),
            s::interrupt((0, 2)),
            s::wait((1, 7), 8, 0),
        ]);
        script.dump();
        script.word(0, 16);
    }
}
