//! Reasons and the other rows of the table of answers: a refusal before -22
//! has no reason, whatever is wrong besides, and one behind it waits.

use super::{all_changed, all_faulty, good, on_sleepers, show, sleepers};
use crate::model::{
    Call, Event, CLOCK_BIT, CMP_REQUEUE, PRIVATE_BIT, REQUEUE, WAIT, WAIT_BITSET, WAKE_OP, WORDS,
};
use crate::script::{self, Record, Script, MEMORY};
use crate::shorthand as s;

pub fn add(script: &mut Script) {
    numbers_and_commands(script);
    memory_and_tables(script);
    beyond(script);
    behind(script);
}

/// -3, -16 and the first -38.
fn numbers_and_commands(script: &mut Script) {
    for (process, index) in [(8, 7), (0, 8), (255, 255), (0, 0), (0, 3)] {
        all_changed(script, |call| Call { process, index, ..call });
    }
    for bits in [CLOCK_BIT, CLOCK_BIT | PRIVATE_BIT, 512, 1 << 31] {
        all_changed(script, |call| Call { op: call.op | bits, ..call });
    }
    all_changed(script, |call| Call { op: 2, ..call });
}

/// -6 and -9, also of stores and of a clock that goes back.
fn memory_and_tables(script: &mut Script) {
    let broken = Record::Poke { field: script::LIST, index: 63, value: 0 };
    for fault in [0, WORDS - 1, MEMORY].map(|n| Record::Lend(n as u32)).into_iter().chain([broken])
    {
        sleepers(script);
        script.event(s::clock(5));
        script.add(fault);
        for call in all_faulty() {
            script.event(Event::Call(call));
        }
        script.events(&[s::store(0, 9, 1), s::store(8, 9, 1), s::store(0, 4097, 1)]);
        script.events(&[s::clock(4), s::clock(0), s::interrupt((0, 8)), s::query(0), s::query(8)]);
        show(script);
    }
}

/// -14, by one address in use or both; the same address twice stays the same.
fn beyond(script: &mut Script) {
    for (first, second) in [(4096, 0), (0, 4096), (4096, 4096)] {
        let moved = |call: Call| {
            let second = if call.uaddr == call.uaddr2 { first } else { second };
            Call { uaddr: call.uaddr + first, uaddr2: call.uaddr2 + second, ..call }
        };
        all_changed(script, moved);
        on_sleepers(script, [REQUEUE, CMP_REQUEUE, WAKE_OP].map(|op| moved(good(op))));
    }
}

/// -11, -110, both, and the second -38: with reasons, and then as the only
/// fault.
fn behind(script: &mut Script) {
    let good = [WAIT, WAIT_BITSET, CMP_REQUEUE, WAKE_OP].map(good);
    let calls: Vec<Call> = all_faulty().into_iter().chain(good).collect();
    on_sleepers(script, calls.iter().filter_map(|&call| differing(call)));
    on_sleepers(script, calls.iter().filter_map(|&call| too_late(call)));
    on_sleepers(script, calls.iter().filter_map(|&call| differing(too_late(call)?)));
    on_sleepers(script, calls.iter().filter_map(|&call| undefined(call)));
}

/// -11: the word expected isn't there.
fn differing(call: Call) -> Option<Call> {
    match call.op {
        WAIT | WAIT_BITSET => Some(Call { val: 1, ..call }),
        CMP_REQUEUE => Some(Call { val3: 1, ..call }),
        _ => None,
    }
}

/// -110: the clock is 0, and so is the deadline.
fn too_late(call: Call) -> Option<Call> {
    let wait = matches!(call.op, WAIT | WAIT_BITSET);
    wait.then_some(Call { flag: 1, timeout: 0, ..call })
}

/// The second -38: no such operation, no such comparison.
fn undefined(call: Call) -> Option<Call> {
    (call.op == WAKE_OP).then_some(Call { val3: 0x5600_0000, ..call })
}
