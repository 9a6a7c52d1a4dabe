//! The arguments of calls at their edges: caps, addresses, command numbers and
//! option bits, callers, and arguments that nobody should look at.

use super::sleepers;
use crate::generate::events::{COMMANDS, EDGE_ADDRESSES, EDGE_U32, EDGE_U64};
use crate::model::{Call, Event, CMP_REQUEUE, REQUEUE, WAIT, WAKE, WAKE_BITSET, WAKE_OP};
use crate::script::Script;
use crate::shorthand as s;

pub fn add(script: &mut Script) {
    caps(script);
    second_caps(script);
    addresses(script);
    commands(script);
    other_bits(script);
    unused(script);
    callers(script);
}

/// A call that is good for every command where word 0 stands at 8 and 16.
/// As WAKE_OP, val3 1 sets the second word to 0 and compares it with 1; as a
/// mask it is one bit; CMP_REQUEUE wants the word itself.
fn good(op: u32) -> Call {
    let val3 = if op & 127 == CMP_REQUEUE { 0 } else { 1 };
    let val = if op & 127 == WAIT || op & 127 == 9 { 0 } else { 2 };
    Call { process: 0, index: 7, op, uaddr: 8, val, flag: 0, timeout: 2, uaddr2: 16, val3 }
}

fn try_call(script: &mut Script, call: Call) {
    sleepers(script);
    script.event(Event::Call(call));
    script.dump();
}

fn caps(script: &mut Script) {
    for op in [WAKE, WAKE_BITSET, REQUEUE, CMP_REQUEUE, WAKE_OP] {
        for &val in EDGE_U32 {
            try_call(script, Call { val, ..good(op) });
        }
    }
}

/// The flag is ignored here, so it takes each value.
fn second_caps(script: &mut Script) {
    for op in [REQUEUE, CMP_REQUEUE, WAKE_OP] {
        for (&timeout, flag) in EDGE_U64.iter().zip([0, 1, 2, 255].into_iter().cycle()) {
            let val3 = if op == WAKE_OP { 0x0100_0fff } else { 0 };
            try_call(script, Call { timeout, flag, val: 1, val3, ..good(op) });
        }
    }
}

fn addresses(script: &mut Script) {
    for &op in COMMANDS {
        for &address in EDGE_ADDRESSES {
            try_call(script, Call { uaddr: address, ..good(op) });
            try_call(script, Call { uaddr2: address, ..good(op) });
            try_call(script, Call { uaddr: address, uaddr2: address, ..good(op) });
        }
        // One address bad in one way, the other in another: -22 comes first.
        try_call(script, Call { uaddr: 4096, uaddr2: 2, ..good(op) });
        try_call(script, Call { uaddr: 2, uaddr2: 4096, ..good(op) });
    }
    for &address in EDGE_ADDRESSES {
        script.fresh();
        script.event(s::store(7, address, 77));
        script.word(7, address);
        script.word(7, address % 4096);
        script.dump();
    }
}

/// Every command number below 16 with each set of the bits 128, 256 and 512.
fn commands(script: &mut Script) {
    for command in 0..16 {
        for bits in 0..8 {
            try_call(script, good(command | bits << 7));
            script.word(0, 16);
        }
    }
}

/// Every other bit makes the command unknown.
fn other_bits(script: &mut Script) {
    for &command in COMMANDS {
        for bit in (4..7).chain(10..32) {
            try_call(script, good(command | 1 << bit));
            try_call(script, good(command | 128 | 1 << bit));
        }
    }
    try_call(script, good(u32::MAX));
    try_call(script, good(!128));
}

/// Each command with junk in the arguments that it doesn't use.
fn unused(script: &mut Script) {
    let (junk, bad) = (u64::MAX, u32::MAX);
    let mut wait = good(WAIT);
    (wait.timeout, wait.uaddr2, wait.val3) = (junk, bad, 0);
    let mut wait_bitset = good(9);
    (wait_bitset.timeout, wait_bitset.uaddr2) = (0, bad);
    let mut wake = good(WAKE);
    (wake.flag, wake.timeout, wake.uaddr2, wake.val3) = (255, junk, 2, 0);
    let mut wake_bitset = good(WAKE_BITSET);
    (wake_bitset.flag, wake_bitset.timeout, wake_bitset.uaddr2) = (1, 0, 8);
    let mut requeue = good(REQUEUE);
    (requeue.flag, requeue.val3) = (1, bad);
    for call in [wait, wait_bitset, wake, wake_bitset, requeue] {
        try_call(script, call);
    }
    // A wait's val is no cap.
    sleepers(script);
    script.events(&[s::store(0, 8, bad), s::wait((0, 7), 8, bad)]);
    script.dump();
}

/// Callers and targets inside and outside the eight by eight.
fn callers(script: &mut Script) {
    for number in [0, 1, 7, 8, 9, 63, 64, 255] {
        for who in [(number, 0), (0, number), (number, number), (7, number), (number, 7)] {
            sleepers(script);
            script.events(&[s::wait(who, 4, 0), s::wake(who, 8, 1), s::interrupt(who)]);
            script.events(&[s::store(number, 8, 3), s::query(number)]);
            script.word(number, 8);
            script.dump();
        }
    }
}
