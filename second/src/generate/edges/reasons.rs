//! The reasons beside -22: every set of them that a command can have, both
//! sides of each limit, every refusal before and behind, and arguments that
//! nobody should look at. What is refused leaves everything as it was, so one
//! lot of sleepers serves many calls, and a dump after them tells.

mod limits;
mod order;
mod others;

use super::{one_of_each, sleepers};
use crate::generate::events::COMMANDS;
use crate::model::{
    Call, Event, CMP_REQUEUE, PRIVATE_BIT, REQUEUE, WAIT, WAIT_BITSET, WAKE, WAKE_BITSET, WAKE_OP,
};
use crate::script::Script;
use crate::shorthand as s;

// The reasons as bits of a set.
const CAP: u32 = 1 << 1;
const SECOND_CAP: u32 = 1 << 2;
const MASK: u32 = 1 << 3;
const FIRST: u32 = 1 << 4;
const SECOND: u32 = 1 << 5;
const SAME: u32 = 1 << 6;

/// Both sides of alignment and of the last word, the good ones last.
const ADDRESSES: &[u32] = &[1, 2, 3, 4093, 4094, 4095, 4096, 4097, 8192, 4, 8];

pub fn add(script: &mut Script) {
    sets(script);
    limits::add(script);
    order::add(script);
    unused(script);
    waits_without_cap(script);
    others::add(script);
}

/// The reasons that a command can have.
fn possible(op: u32) -> u32 {
    match op {
        WAIT => FIRST,
        WAKE => CAP | FIRST,
        WAIT_BITSET => MASK | FIRST,
        WAKE_BITSET => CAP | MASK | FIRST,
        WAKE_OP => CAP | SECOND_CAP | FIRST | SECOND,
        _ => CAP | SECOND_CAP | FIRST | SECOND | SAME,
    }
}

/// A call that would release, move or sleep among `sleepers`.
fn good(op: u32) -> Call {
    let (val, val3) = match op {
        WAIT => (0, 1),
        WAIT_BITSET => (0, 2),
        WAKE_OP => (2, 0x1000_1000),
        CMP_REQUEUE => (2, 0),
        _ => (2, 2),
    };
    Call { process: 0, index: 7, op, uaddr: 8, val, flag: 0, timeout: 2, uaddr2: 16, val3 }
}

/// A call that is good but for these reasons.
fn faulty(op: u32, reasons: u32) -> Call {
    let has = |reason| reasons & reason != 0;
    let mut call = good(op);
    if has(CAP) {
        call.val = 1 << 31;
    }
    if has(SECOND_CAP) {
        call.timeout = 1 << 31;
    }
    if has(MASK) {
        call.val3 = 0;
    }
    if has(FIRST) {
        call.uaddr += 2;
    }
    if has(SECOND) {
        call.uaddr2 += 1;
    }
    if has(SAME) {
        call.uaddr2 = call.uaddr;
    }
    call
}

/// A call for each command and each set of reasons that it can have.
fn all_faulty() -> Vec<Call> {
    let mut calls = Vec::new();
    for &op in COMMANDS {
        for reasons in (1..1u32 << 7).filter(|reasons| reasons & !possible(op) == 0) {
            // The same address twice is aligned at both places or at none.
            let unlike = (reasons & FIRST == 0) != (reasons & SECOND == 0);
            if reasons & SAME == 0 || !unlike {
                calls.push(faulty(op, reasons));
            }
        }
    }
    calls
}

/// Calls on one lot of sleepers, then all that could have changed.
fn on_sleepers(script: &mut Script, calls: impl IntoIterator<Item = Call>) {
    sleepers(script);
    for call in calls {
        script.event(Event::Call(call));
    }
    show(script);
}

/// All the calls with reasons, each changed in one way.
fn all_changed(script: &mut Script, change: impl Fn(Call) -> Call) {
    on_sleepers(script, all_faulty().into_iter().map(change));
}

fn show(script: &mut Script) {
    script.dump();
    script.word(0, 8);
    script.word(0, 16);
}

/// Each set alone, then with good events between, which have no reason.
fn sets(script: &mut Script) {
    all_changed(script, |call| call);
    all_changed(script, |call| Call { op: call.op | PRIVATE_BIT, ..call });
    all_changed(script, |call| Call { process: 7, index: 0, ..call });
    // The thirteenth good event puts the caller to sleep.
    for calls in all_faulty().chunks(13) {
        sleepers(script);
        for (&call, good) in calls.iter().zip(one_of_each()) {
            script.events(&[Event::Call(call), good]);
        }
        show(script);
    }
}

/// A call with all that its command doesn't use at values that would have a
/// reason elsewhere.
fn with_junk(call: Call, uaddr2: u32) -> Call {
    let mut call = Call { flag: 1, ..call };
    if possible(call.op) & SECOND == 0 {
        call.uaddr2 = uaddr2;
    }
    match call.op {
        // A wait uses its timeout if the flag is given.
        WAIT => (call.flag, call.timeout, call.val3) = (0, 1 << 31, 0),
        WAIT_BITSET => (call.flag, call.timeout) = (0, 1 << 31),
        WAKE => (call.timeout, call.val3) = (1 << 31, 0),
        WAKE_BITSET => call.timeout = u64::MAX,
        REQUEUE => call.val3 = 0,
        _ => {}
    }
    call
}

/// Junk gives no reason and hides none.
fn unused(script: &mut Script) {
    for op in [WAIT, WAIT_BITSET, WAKE, WAKE_BITSET] {
        for uaddr2 in [3, 8, 4096, 4097] {
            on_sleepers(script, [with_junk(good(op), uaddr2)]);
        }
    }
    for op in [REQUEUE, CMP_REQUEUE, WAKE_OP] {
        on_sleepers(script, [with_junk(good(op), 0)]);
    }
    for uaddr2 in [3, 8, 10] {
        all_changed(script, |call| with_junk(call, uaddr2));
    }
    // Equal addresses are no fault of WAKE_OP, nor is a val3 of 0.
    on_sleepers(script, [Call { uaddr2: 8, ..good(WAKE_OP) }]);
    on_sleepers(script, [Call { val3: 0, ..good(WAKE_OP) }]);
    on_sleepers(script, [Call { uaddr: 4096, uaddr2: 4096, ..good(WAKE_OP) }]);
}

/// A wait's val is no cap, however high, whether it is the word or not.
fn waits_without_cap(script: &mut Script) {
    for val in [1 << 31, u32::MAX] {
        sleepers(script);
        script.event(s::store(0, 8, val));
        for op in [WAIT, WAIT_BITSET] {
            for call in [faulty(op, possible(op)), faulty(op, FIRST), good(op)] {
                script.event(Event::Call(Call { val: val - 1, ..call }));
                script.event(Event::Call(Call { val, ..call }));
            }
            script.event(s::interrupt((0, 7)));
        }
        show(script);
    }
}
