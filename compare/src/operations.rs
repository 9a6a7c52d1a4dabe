//! What a WAKE_OP shows of its operation and its comparison, so that a run
//! knows which it has tried, with numbers below 0 and above.

use second::bytes::u32_at;
use second::layout::{UADDR, WAITING};
use second::model::{Call, THREADS_PER_PROCESS};

pub const COMPARISONS: usize = 6;
/// Five, without and with the shift bit.
pub const OPERATIONS: &[usize] = &[0, 1, 2, 3, 4, 8, 9, 10, 11, 12];
/// How a comparison came out: bit 0 is set if the old word is negative, bit 1
/// if cmparg is, bit 2 if it was true.
pub const WAYS: usize = 8;

/// A WAKE_OP that was answered with a count, and whose comparison was seen.
pub struct Shown {
    pub operation: usize,
    pub oparg_negative: bool,
    pub comparison: usize,
    pub way: usize,
}

impl Shown {
    /// From the old word at the call's second address and the tables before
    /// and after it. True is seen by a sleeper there whom the second cap took,
    /// false by one whom it left; without such a sleeper neither is.
    pub fn of(call: &Call, old: u32, before: &[u8], after: &[u8]) -> Option<Shown> {
        let asleep = asleep_at(before, call.process, call.uaddr2);
        let by_first_cap = if call.uaddr == call.uaddr2 { asleep.min(call.val) } else { 0 };
        if asleep == by_first_cap || call.timeout as u32 == 0 {
            return None;
        }
        let woken = asleep - asleep_at(after, call.process, call.uaddr2);
        let outcome = (woken > by_first_cap) as usize;
        let (oparg, cmparg) = (call.val3 >> 12, call.val3);
        Some(Shown {
            operation: (call.val3 >> 28) as usize,
            oparg_negative: negative_field(oparg),
            comparison: (call.val3 >> 24 & 15) as usize,
            way: (old >> 31) as usize | (negative_field(cmparg) as usize) << 1 | outcome << 2,
        })
    }
}

/// Whether the lowest twelve bits, with their sign, are below 0.
fn negative_field(bits: u32) -> bool {
    bits >> 11 & 1 == 1
}

/// How many sleep at a word.
pub fn asleep_at(tables: &[u8], process: u8, address: u32) -> u32 {
    let first = THREADS_PER_PROCESS * process as usize;
    let is_there = |number: &usize| {
        tables[WAITING + number] == 1 && u32_at(tables, UADDR + 4 * number) == address
    };
    (first..first + THREADS_PER_PROCESS).filter(is_there).count() as u32
}

/// Whether a comparison can come out so: numbers of different signs compare in
/// one way only.
pub fn possible(comparison: usize, way: usize) -> bool {
    let (old, cmparg, outcome) = (way & 1, way >> 1 & 1, way >> 2);
    let apart = match comparison {
        0 => 0,
        1 => 1,
        2 | 3 => old,
        _ => cmparg,
    };
    old == cmparg || outcome == apart
}

pub fn outcome(way: usize) -> bool {
    way >> 2 == 1
}

pub fn way_name(way: usize) -> String {
    let (old, cmparg) = (sign(way & 1 == 1), sign(way >> 1 & 1 == 1));
    format!("{}, old word {old}, cmparg {cmparg}", outcome(way))
}

pub fn sign(negative: bool) -> &'static str {
    if negative {
        "negative"
    } else {
        "not negative"
    }
}
