//! Priorities, interrupts, the clock and new sleepers between the wakes: each wake
//! goes by what there is when it comes.

use super::{join, patterns, set, WHO};
use crate::model::{Event, State};
use crate::script::Script;
use crate::shorthand as s;

pub fn add(script: &mut Script) {
    for row in patterns(6) {
        for event in between() {
            let mut state = State::fresh();
            join(&mut state, 8, &row);
            set(script, &state);
            script.events(&[s::wake(WHO, 8, 1), event, s::wake(WHO, 8, 1)]);
            script.dump();
            script.event(s::wake(WHO, 8, 2));
            script.dump();
        }
    }
    other_priorities(script);
    comes_again(script);
    refused(script);
}

/// What may come between two wakes; the last two change nobody's order.
fn between() -> Vec<Event> {
    vec![
        s::interrupt((0, 6)),
        s::interrupt((0, 5)),
        s::clock(101),
        s::clock(105),
        s::set_priority((0, 2), 31),
        s::set_priority((0, 5), 0),
        s::set_priority((0, 6), 30),
        s::wait((0, 4), 8, 0),
        s::requeue(WHO, 8, 16, 0, 2),
        s::store(0, 8, 1),
        s::set_priority((1, 2), 31),
    ]
}

/// Other priorities for the first who came and for the last between the calls.
fn other_priorities(script: &mut Script) {
    script.fresh();
    for index in [4, 2, 6, 0, 5] {
        script.event(s::wait((0, index), 8, 0));
    }
    for (first, last) in [(0, 31), (31, 0), (1, 30), (9, 9), (0, 1)] {
        script.events(&[s::set_priority((0, 5), last), s::set_priority((0, 4), first)]);
        script.event(s::requeue(WHO, 8, 16, 0, 1));
        script.dump();
        script.event(s::wake(WHO, 8, 1));
        script.dump();
        script.event(s::requeue(WHO, 16, 8, 0, 1));
        script.dump();
    }
}

/// Who was taken first comes last if he sleeps again, but goes first again if his
/// priority is above the others'.
fn comes_again(script: &mut Script) {
    for stop_key in [0, 1, 31] {
        script.fresh();
        script.event(s::set_priority((0, 2), stop_key));
        for index in [0, 1, 2] {
            script.event(s::wait((0, index), 8, 0));
        }
        for round in 0..5 {
            script.event(s::wake(WHO, 8, 1));
            script.event(s::query(0));
            script.event(s::wait((0, 2), 8, 0));
            script.event(s::wait((0, round % 2), 8, 0));
            script.dump();
        }
    }
}

/// A refused call takes nobody, whoever goes first.
fn refused(script: &mut Script) {
    let mut state = State::fresh();
    join(&mut state, 8, &[0, 31, 30, 31]);
    set(script, &state);
    script.events(&[
        s::wake(WHO, 8, 2147483648),
        s::wake_bitset(WHO, 8, 1, 0),
        s::requeue(WHO, 8, 8, 1, 1),
        s::requeue(WHO, 8, 16, 1, 1 << 31),
        s::cmp_requeue(WHO, 8, 16, (1, 1), 1),
        s::wake_op(WHO, 8, 16, (1, 1), 0x5000_0000),
        s::wake((0, 3), 8, 1),
        s::set_priority((0, 3), 32),
    ]);
    script.dump();
    script.event(s::wake(WHO, 8, 1));
    script.dump();
}
