//! REQUEUE and CMP_REQUEUE: whom each cap takes, that those who move stand at the
//! list's end in the order in which they were taken, and whom a wake at their new
//! word takes afterwards.

use super::{at_two, patterns, set, Caps, ALL, CAPS, COMERS, WHO};
use crate::model::Event;
use crate::script::Script;
use crate::shorthand as s;

pub fn add(script: &mut Script) {
    for row in patterns(5) {
        for caps in CAPS {
            onto_nobody(script, &row, caps);
            onto_sleepers(script, &row, caps);
        }
        order_stays(script, &row);
        to_and_fro(script, &row);
    }
    for count in [1, 2, 3, 7] {
        for row in patterns(count) {
            all_move(script, &row);
        }
    }
}

fn both(caps: Caps) -> [Event; 2] {
    [s::requeue(WHO, 8, 16, caps.0, caps.1), s::cmp_requeue(WHO, 8, 16, caps, 0)]
}

fn onto_nobody(script: &mut Script, row: &[u8], caps: Caps) {
    for event in both(caps) {
        set(script, &at_two(row, &[]));
        script.event(event);
        script.dump();
    }
    script.event(s::wake(WHO, 16, 1));
    script.dump();
}

/// Two sleep at the target already, one of them above most: the first wake there
/// takes the highest of all, the next one goes on.
fn onto_sleepers(script: &mut Script, row: &[u8], caps: Caps) {
    for (event, others) in both(caps).into_iter().zip([[9, 30], [31, 0]]) {
        set(script, &at_two(row, &others));
        script.event(event);
        script.dump();
        script.event(s::wake(WHO, 16, 1));
        script.dump();
        script.event(s::wake(WHO, 16, 2));
        script.dump();
    }
}

/// All of few and of many, by one call and by two.
fn all_move(script: &mut Script, row: &[u8]) {
    set(script, &at_two(row, &[]));
    script.event(s::cmp_requeue(WHO, 8, 16, (0, u64::from(ALL)), 0));
    script.dump();
    set(script, &at_two(row, &[]));
    script.event(s::requeue(WHO, 8, 16, 0, 1));
    script.event(s::requeue(WHO, 8, 16, 0, 9));
    script.dump();
}

/// The list's order is that of the taking, and stays so: with all priorities equal
/// afterwards the wakes go by it.
fn order_stays(script: &mut Script, row: &[u8]) {
    set(script, &at_two(row, &[20]));
    script.event(s::requeue(WHO, 8, 16, 1, 9));
    for index in COMERS {
        script.event(s::set_priority((0, index), 7));
    }
    for _ in 0..5 {
        script.event(s::wake(WHO, 16, 1));
        script.dump();
    }
}

/// There and back again, one and two at a time, with another priority in between.
fn to_and_fro(script: &mut Script, row: &[u8]) {
    set(script, &at_two(row, &[5, 31]));
    for (cap, index) in [(1, 0), (2, 3), (2, 6), (9, 1)] {
        script.event(s::requeue(WHO, 8, 16, 0, cap));
        script.dump();
        script.event(s::set_priority((0, index), 31 - 5 * index));
        script.event(s::cmp_requeue(WHO, 16, 8, (0, 2), 0));
        script.dump();
    }
    script.event(s::wake(WHO, 8, 1));
    script.event(s::wake(WHO, 16, 1));
    script.dump();
}
