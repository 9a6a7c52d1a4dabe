//! All 64 asleep: one sleep ends, and the thread that runs again waits again, so
//! that the list goes 64, 63, 64.

use super::{fill, WHO};
use crate::model::Event;
use crate::script::Script;
use crate::shorthand::{self as s, Who};

/// The thread that fell asleep first, one from the middle, and the one that fell
/// asleep last.
const FIRST: Who = (0, 0);
const MIDDLE: Who = (7, 7);
const LAST: Who = WHO;

pub fn add(script: &mut Script) {
    fill(script);
    script.event(s::wait(LAST, 8, 0));
    interrupted(script);
    timed_out(script);
    waking(script);
}

/// Each waits again with a deadline before all others, so that the clock can
/// end them one by one.
fn interrupted(script: &mut Script) {
    for (who, wait) in [
        (FIRST, s::wait_for(FIRST, 8, 0, 930)),
        (MIDDLE, s::wait_until(MIDDLE, 8, 0, 1, 910)),
        (LAST, s::wait_for(LAST, 12, 0, 920)),
    ] {
        script.events(&[wait, s::interrupt(who), s::interrupt(who), s::query(who.0)]);
        script.dump();
        again(script, wait);
    }
}

/// The clock ends them in another order than that in which they fell asleep.
fn timed_out(script: &mut Script) {
    for (time, wait) in [
        (910, s::wait_bitset(MIDDLE, 8, 0, 1 << 31)),
        (920, s::wait(LAST, 8, 0)),
        (930, s::wait_until(FIRST, 12, 0, u32::MAX, u64::MAX)),
    ] {
        script.events(&[s::clock(time - 1), wait, s::clock(time)]);
        again(script, wait);
    }
}

/// The thread sleeps, and is waiting.
fn again(script: &mut Script, wait: Event) {
    script.events(&[wait, wait]);
    script.dump();
}

/// The thread that runs again takes other sleepers by each command before it
/// waits. Then its whole process waits, so that the list is full again.
fn waking(script: &mut Script) {
    let calls: [fn(Who) -> Event; 5] = [
        |who| s::wake(who, 8, 1),
        |who| s::wake_bitset(who, 8, 2, 2),
        |who| s::requeue(who, 8, 12, 1, 2),
        |who| s::cmp_requeue(who, 8, 12, (1, 1), 0),
        // It sets 0 where 0 is and compares it with 0, so both words release.
        |who| s::wake_op(who, 8, 12, (1, 1), 0),
    ];
    for (process, call) in (1..).zip(calls) {
        let who = (process, 2);
        script.events(&[call(who), s::interrupt(who), call(who)]);
        script.events(&[s::wait(who, 8, 0), s::query(process)]);
        for index in 0..8 {
            script.event(s::wait((process, index), 8, 0));
        }
        script.dump();
    }
}
