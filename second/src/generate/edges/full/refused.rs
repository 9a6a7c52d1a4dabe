//! The last thread awake is refused, by each test that its calls can meet: all
//! those answers come though the list is nearly full.

use super::{fill, AWAKE, WHO};
use crate::model::{
    Call, Event, CLOCK_BIT, CMP_REQUEUE, PRIVATE_BIT, REQUEUE, THREADS, WAIT, WAIT_BITSET, WAKE,
    WAKE_BITSET, WAKE_OP, WORDS,
};
use crate::script::Script;
use crate::shorthand as s;

/// Makes a good call faulty.
type Fault = fn(Call) -> Call;

// The faults, each lot in the order of the table of answers.

/// -3, -16, -38.
const CALLER: &[Fault] = &[
    |call| Call { process: 8, ..call },
    |call| Call { index: 8, ..call },
    |call| Call { process: 255, index: 255, ..call },
    |call| Call { index: 0, ..call },
    |call| Call { process: 7, index: 7, ..call },
    |call| Call { op: call.op | CLOCK_BIT, ..call },
    |call| Call { op: call.op | CLOCK_BIT | PRIVATE_BIT, ..call },
    |call| Call { op: call.op | 512, ..call },
    |call| Call { op: 2, ..call },
];
/// -22, reasons 1, 2 and 3, also with another reason behind.
const CAP: &[Fault] =
    &[|call| Call { val: 1 << 31, ..call }, |call| Call { val: u32::MAX, uaddr: 9, ..call }];
const SECOND_CAP: &[Fault] = &[
    |call| Call { timeout: 1 << 31, ..call },
    |call| Call { timeout: u64::MAX, uaddr2: 9, ..call },
];
const MASK: &[Fault] =
    &[|call| Call { val3: 0, ..call }, |call| Call { val3: 0, uaddr: 4097, ..call }];
/// -22, reason 4, then -14.
const ADDRESS: &[Fault] = &[
    |call| Call { uaddr: 9, ..call },
    |call| Call { uaddr: 4094, ..call },
    |call| Call { uaddr: 4097, ..call },
    |call| Call { uaddr: 4096, ..call },
    |call| Call { uaddr: u32::MAX - 3, ..call },
];
/// -22, reason 5, then -14.
const SECOND_ADDRESS: &[Fault] = &[
    |call| Call { uaddr2: 9, ..call },
    |call| Call { uaddr2: 4097, ..call },
    |call| Call { uaddr2: 4096, ..call },
];
/// -22, reason 6.
const SAME: &[Fault] = &[|call| Call { uaddr2: call.uaddr, ..call }];
/// -38.
const OPERATION: &[Fault] =
    &[|call| Call { val3: 0x5000_1000, ..call }, |call| Call { val3: 0x1600_1000, ..call }];
/// CMP_REQUEUE's -11.
const WORD: &[Fault] = &[|call| Call { val3: 1, ..call }];
/// A wait's -11, -11 before -110, and -110.
const LATE: &[Fault] = &[
    |call| Call { val: 1, ..call },
    |call| Call { val: u32::MAX, ..call },
    |call| Call { val: 1, flag: 1, timeout: 0, ..call },
    |call| Call { flag: 255, timeout: 0, ..call },
    |call| Call { flag: 1, timeout: 0, ..call },
];
/// -110 by an absolute time at the clock or before it.
const PAST: &[Fault] = &[
    |call| Call { flag: 1, timeout: 1000, ..call },
    |call| Call { flag: 1, timeout: 999, ..call },
    |call| Call { flag: 2, timeout: 1, ..call },
];

pub fn add(script: &mut Script) {
    fill(script);
    script.event(s::clock(1000));
    for call in good_waits() {
        each(script, call);
        heaped(script, call);
    }
    script.dump();
    for call in good_others() {
        each(script, call);
    }
    memory(script);
    script.dump();
    script.word(0, 8);
    script.word(0, 12);
    last_clock(script);
}

/// Waits that would sleep, were it not for their faults.
fn good_waits() -> [Call; 4] {
    let wait = Call { index: WHO.1, op: WAIT, uaddr: 8, val3: 1, ..Call::default() };
    let bitset = Call { op: WAIT_BITSET, ..wait };
    let timed = Call { flag: 1, timeout: 1, ..wait };
    [wait, timed, bitset, Call { flag: 1, timeout: 1001, ..bitset }]
}

/// The other commands, each of which would release or move.
fn good_others() -> [Call; 5] {
    [WAKE, WAKE_BITSET, REQUEUE, CMP_REQUEUE, WAKE_OP].map(|op| {
        let val3 = if op == CMP_REQUEUE { 0 } else { 0x1000_1000 };
        Call { index: WHO.1, op, uaddr: 8, val: 1, timeout: 1, uaddr2: 12, val3, ..Call::default() }
    })
}

/// All the faults that a command can have.
fn faults(op: u32) -> Vec<Fault> {
    match op {
        WAIT => [CALLER, ADDRESS, LATE].concat(),
        WAIT_BITSET => [CALLER, MASK, ADDRESS, LATE, PAST].concat(),
        WAKE => [CALLER, CAP, ADDRESS].concat(),
        WAKE_BITSET => [CALLER, CAP, MASK, ADDRESS].concat(),
        REQUEUE => [CALLER, CAP, SECOND_CAP, ADDRESS, SECOND_ADDRESS, SAME].concat(),
        CMP_REQUEUE => [CALLER, CAP, SECOND_CAP, ADDRESS, SECOND_ADDRESS, SAME, WORD].concat(),
        _ => [CALLER, CAP, SECOND_CAP, ADDRESS, SECOND_ADDRESS, OPERATION].concat(),
    }
}

fn each(script: &mut Script, good: Call) {
    for fault in faults(good.op) {
        script.event(Event::Call(fault(good)));
    }
}

/// The same faults heaped up from the last to the first: each new one hides
/// those behind it.
fn heaped(script: &mut Script, good: Call) {
    let mut call = good;
    for fault in faults(good.op).into_iter().rev() {
        call = fault(call);
        script.event(Event::Call(call));
    }
}

/// -6.
fn memory(script: &mut Script) {
    script.lend(WORDS - 1);
    for call in good_waits().into_iter().chain(good_others()) {
        script.event(Event::Call(call));
    }
    script.lend(WORDS);
}

/// At the last time no deadline is ahead, so 63 sleep without one, and no timed
/// wait can be the 64th. One without a time still can.
fn last_clock(script: &mut Script) {
    script.event(s::clock(u64::MAX));
    for number in (0..THREADS).filter(|&number| number != AWAKE) {
        script.event(s::wait((number as u8 / 8, number as u8 % 8), 8, 0));
    }
    for time in [0, 1, u64::MAX] {
        script.events(&[s::wait_for(WHO, 8, 0, time), s::wait_until(WHO, 8, 0, 1, time)]);
    }
    script.event(s::wait(WHO, 8, 0));
    script.dump();
}
