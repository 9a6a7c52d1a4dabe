//! The clock, timeouts and deadlines at their edges.

use crate::model::{Call, Event, WAIT, WAIT_BITSET};
use crate::script::Script;
use crate::shorthand as s;

const TIMES: &[u64] =
    &[0, 1, 5, 6, 1 << 31, (1 << 32) - 1, 1 << 32, 1 << 63, u64::MAX - 5, u64::MAX - 1, u64::MAX];

pub fn add(script: &mut Script) {
    for &clock in TIMES {
        for &timeout in TIMES {
            for flag in [0, 1] {
                one_wait(script, WAIT, clock, timeout, flag);
                one_wait(script, WAIT_BITSET, clock, timeout, flag);
            }
        }
    }
    for flag in [2, 128, 255] {
        one_wait(script, WAIT, 5, 10, flag);
        one_wait(script, WAIT_BITSET, 5, 10, flag);
        one_wait(script, WAIT, 5, 0, flag);
        one_wait(script, WAIT_BITSET, 5, 5, flag);
    }
    clock_events(script);
    many_deadlines(script);
}

/// A wait, then the clock just before its deadline, at it, and back again.
fn one_wait(script: &mut Script, op: u32, clock: u64, timeout: u64, flag: u8) {
    script.fresh();
    script.event(s::clock(clock));
    let call = Call { op, uaddr: 8, flag, timeout, val3: 1, ..Call::default() };
    script.event(Event::Call(call));
    script.dump();
    let deadline = if op == WAIT { clock.saturating_add(timeout) } else { timeout };
    if deadline > clock {
        script.events(&[s::clock(deadline - 1), s::clock(deadline), s::clock(deadline - 1)]);
        script.dump();
    }
}

/// Clock events against each other.
fn clock_events(script: &mut Script) {
    for &first in TIMES {
        for &second in TIMES {
            script.fresh();
            script.events(&[s::clock(first), s::clock(second)]);
            script.dump();
        }
    }
}

/// Sleepers of several processes with deadlines in another order than their
/// arrival, among sleepers with none: those that stay keep their order.
fn many_deadlines(script: &mut Script) {
    script.fresh();
    for (number, deadline) in [30, 10, 0, 20, 10, 40, 0, 30, u64::MAX, 11].into_iter().enumerate() {
        let who = (number as u8 % 4, number as u8 / 4);
        script.event(match deadline {
            0 => s::wait(who, 4, 0),
            _ => s::wait_until(who, 4 * (number as u32 % 3), 0, 1, deadline),
        });
    }
    for time in [9, 10, 11, 29, 30, 31, u64::MAX - 1, u64::MAX, u64::MAX] {
        script.event(s::clock(time));
        script.dump();
        script.events(&[s::query(0), s::query(1), s::query(2), s::query(3), s::query(4)]);
    }
    // At the last clock a wait without a timeout still sleeps.
    script.events(&[s::wait_for((0, 0), 4, 0, 1), s::wait((0, 0), 4, 0)]);
    script.dump();
}
