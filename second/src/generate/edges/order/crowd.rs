//! A list of 63 sleepers, with priorities of every kind: each command by the one
//! thread that runs, and then by whomever it has let run.

use super::{set, ALL, FALSE, TRUE};
use crate::generate::tables;
use crate::model::{Event, State};
use crate::script::Script;
use crate::shorthand::{self as s, Who};

/// All priorities, each twice; two levels; one above all others in each process.
const RANKS: &[fn(usize) -> u8] = &[
    |number| (number * 7 % 32) as u8,
    |number| 30 + (number / 2 % 2) as u8,
    |number| if number % 8 == 4 { 31 } else { 3 },
];

pub fn add(script: &mut Script) {
    for rank in RANKS {
        for event in calls((3, 3)) {
            set(script, &crowd(27, *rank));
            script.event(event);
            script.dump();
        }
    }
    for awake in [0, 63] {
        one_after_another(script, awake);
    }
    asleep_one_by_one(script);
}

fn crowd(awake: usize, rank: fn(usize) -> u8) -> State {
    let mut state = tables::nearly_full(awake);
    for (number, thread) in state.threads.iter_mut().enumerate() {
        thread.priority = rank(number);
    }
    state
}

fn calls(who: Who) -> Vec<Event> {
    vec![
        s::wake(who, 8, 1),
        s::wake(who, 12, 2),
        s::wake_bitset(who, 8, 1, 1),
        s::requeue(who, 8, 12, 1, 2),
        s::cmp_requeue(who, 8, 12, (0, u64::from(ALL)), 0),
        s::wake_op(who, 8, 12, (1, 1), TRUE),
        s::wake_op(who, 8, 8, (1, 2), TRUE),
        s::wake_op(who, 12, 8, (1, 1), FALSE),
    ]
}

/// Requeues and wakes of one process on one list.
fn one_after_another(script: &mut Script, awake: usize) {
    let who = (awake as u8 / 8, awake as u8 % 8);
    set(script, &crowd(awake, RANKS[0]));
    script.event(s::requeue(who, 8, 12, 0, 2));
    script.dump();
    script.event(s::requeue(who, 12, 8, 1, 9));
    script.event(s::clock(120));
    script.dump();
    for _ in 0..3 {
        script.event(s::wake(who, 8, 1));
        script.event(s::query(who.0));
    }
    script.dump();
}

/// The same list by events alone: all come, each with its priority, and each process
/// lets one go, by an interrupt, who then wakes two.
fn asleep_one_by_one(script: &mut Script) {
    script.fresh();
    for number in tables::mixed() {
        let who = (number as u8 / 8, number as u8 % 8);
        script.event(s::set_priority(who, RANKS[0](number)));
        script.event(s::wait(who, 8, 0));
    }
    script.dump();
    for process in 0..8 {
        let who = (process, (5 * process + 1) % 8);
        script.event(s::interrupt(who));
        script.event(s::wake(who, 8, 2));
        script.event(s::query(process));
        script.dump();
    }
}
