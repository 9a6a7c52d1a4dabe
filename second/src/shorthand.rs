//! Short ways to write events, for the checks and the edge script.

use crate::model::{
    Call, Event, CMP_REQUEUE, REQUEUE, WAIT, WAIT_BITSET, WAKE, WAKE_BITSET, WAKE_OP,
};

/// The caller: process and index.
pub type Who = (u8, u8);

fn call(who: Who, op: u32, uaddr: u32, val: u32) -> Call {
    Call { process: who.0, index: who.1, op, uaddr, val, ..Call::default() }
}

pub fn wait(who: Who, uaddr: u32, val: u32) -> Event {
    Event::Call(call(who, WAIT, uaddr, val))
}

/// WAIT with a relative timeout.
pub fn wait_for(who: Who, uaddr: u32, val: u32, timeout: u64) -> Event {
    Event::Call(Call { flag: 1, timeout, ..call(who, WAIT, uaddr, val) })
}

pub fn wait_bitset(who: Who, uaddr: u32, val: u32, val3: u32) -> Event {
    Event::Call(Call { val3, ..call(who, WAIT_BITSET, uaddr, val) })
}

/// WAIT_BITSET with an absolute timeout.
pub fn wait_until(who: Who, uaddr: u32, val: u32, val3: u32, timeout: u64) -> Event {
    Event::Call(Call { flag: 1, timeout, val3, ..call(who, WAIT_BITSET, uaddr, val) })
}

pub fn wake(who: Who, uaddr: u32, cap: u32) -> Event {
    Event::Call(call(who, WAKE, uaddr, cap))
}

pub fn wake_bitset(who: Who, uaddr: u32, cap: u32, val3: u32) -> Event {
    Event::Call(Call { val3, ..call(who, WAKE_BITSET, uaddr, cap) })
}

/// REQUEUE with its two addresses and its two caps.
pub fn requeue(who: Who, from: u32, to: u32, cap: u32, second_cap: u64) -> Event {
    Event::Call(Call { uaddr2: to, timeout: second_cap, ..call(who, REQUEUE, from, cap) })
}

/// CMP_REQUEUE; the word at `from` must be `word`.
pub fn cmp_requeue(who: Who, from: u32, to: u32, caps: (u32, u64), word: u32) -> Event {
    let first = call(who, CMP_REQUEUE, from, caps.0);
    Event::Call(Call { uaddr2: to, timeout: caps.1, val3: word, ..first })
}

/// WAKE_OP: wakes at `first`, changes the word at `second`.
pub fn wake_op(who: Who, first: u32, second: u32, caps: (u32, u64), val3: u32) -> Event {
    let first = call(who, WAKE_OP, first, caps.0);
    Event::Call(Call { uaddr2: second, timeout: caps.1, val3, ..first })
}

/// WAKE_OP's val3; the two arguments are -2048 to 2047, kept modulo 4096.
pub fn val3(op: u32, cmp: u32, oparg: i32, cmparg: i32) -> u32 {
    let field = |argument: i32| argument.rem_euclid(4096) as u32;
    op << 28 | cmp << 24 | field(oparg) << 12 | field(cmparg)
}

pub fn store(process: u8, address: u32, value: u32) -> Event {
    Event::Store { process, address, value }
}

pub fn clock(time: u64) -> Event {
    Event::Clock { time }
}

pub fn interrupt(who: Who) -> Event {
    Event::Interrupt { process: who.0, index: who.1 }
}

pub fn set_priority(who: Who, priority: u8) -> Event {
    Event::SetPriority { process: who.0, index: who.1, priority }
}

pub fn query(process: u8) -> Event {
    Event::Query { process }
}
