//! Histories of events, biased to the interesting: few addresses, small values
//! and caps, masks of few bits, deadlines near the clock, edge numbers. The
//! tables and words are looked at, so that many waits truly sleep.

use super::aimed;
use crate::model::{
    Call, Event, State, CMP_REQUEUE, FIRST_BAD_ADDRESS, HIGHEST_PRIORITY, PROCESSES, REQUEUE,
    THREADS_PER_PROCESS, WAIT, WAIT_BITSET, WAKE, WAKE_BITSET, WAKE_OP, WORDS_PER_PROCESS,
};
use crate::rng::Rng;
use crate::shorthand as s;

pub const EDGE_U32: &[u32] =
    &[0, 1, 2, 3, 255, 2147483647, 2147483648, 2147483649, u32::MAX - 1, u32::MAX];
pub const EDGE_U64: &[u64] = &[
    0,
    1,
    (1 << 31) - 1,
    1 << 31,
    (1 << 32) - 1,
    1 << 32,
    (1 << 32) + 1,
    (1 << 32) + (1 << 31),
    (1 << 63) - 1,
    1 << 63,
    u64::MAX - 1,
    u64::MAX,
];
pub const GOOD_ADDRESSES: &[u32] = &[0, 4, 8, 4088, 4092];
pub const EDGE_ADDRESSES: &[u32] = &[
    0,
    4,
    8,
    4088,
    4092,
    1,
    2,
    3,
    4093,
    4094,
    4095,
    4096,
    4097,
    4100,
    8192,
    u32::MAX - 3,
    u32::MAX,
];
pub const MASKS: &[u32] = &[1, 2, 3, 4, 6, 1 << 31, u32::MAX];
/// Both ends of what there is, and beyond it, with good ones in the low five bits.
pub const EDGE_PRIORITIES: &[u8] = &[0, 1, 30, 31, 32, 33, 63, 64, 127, 128, 254, 255];
pub const COMMANDS: &[u32] = &[WAIT, WAIT_BITSET, WAKE, WAKE_BITSET, REQUEUE, CMP_REQUEUE, WAKE_OP];
/// Words by the numbers that WAKE_OP takes them for: both ends, and both sides
/// of what a cmparg can be.
const EDGE_WORDS: &[i32] = &[i32::MIN, -2049, -2048, -2, -1, 0, 1, 2047, 2048, i32::MAX];
const EDGE_OPARGS: &[i32] = &[-2048, -33, -32, -31, -2, -1, 0, 1, 2, 3, 31, 32, 33, 2047];
const EDGE_CMPARGS: &[i32] = &[-2048, -2, -1, 0, 1, 2, 3, 2047];

/// The next event of a history that has come to these tables and words. Priorities
/// are set often until a fair number of threads have one.
pub fn next(rng: &mut Rng, state: &State, words: &[u32]) -> Event {
    let given = state.threads.iter().filter(|thread| thread.priority > 0).count();
    if rng.percent(if given < 12 { 25 } else { 10 }) {
        return s::set_priority(aimed::target(rng, state), priority(rng));
    }
    next_that_keeps(rng, state, words)
}

/// The same, but that it leaves all priorities as they are.
pub fn next_that_keeps(rng: &mut Rng, state: &State, words: &[u32]) -> Event {
    let aimed = rng.percent(30).then(|| aimed::call(rng, state, words)).flatten();
    aimed.unwrap_or_else(|| next_but_priorities(rng, state, words))
}

/// What there was before there were priorities, for logs that are to stay as they
/// were then.
pub fn next_but_priorities(rng: &mut Rng, state: &State, words: &[u32]) -> Event {
    match rng.below(100) {
        0..=71 => Event::Call(call(rng, state, words)),
        72..=79 => {
            Event::Store { process: process(rng), address: address(rng), value: stored(rng) }
        }
        80..=86 => Event::Clock { time: near_clock(rng, state.clock) },
        87..=92 => Event::Interrupt { process: process(rng), index: index(rng) },
        _ => Event::Query { process: process(rng) },
    }
}

/// A few processes meet often, all others now and then.
pub fn process(rng: &mut Rng) -> u8 {
    match rng.below(100) {
        0..=79 => rng.pick(&[0, 0, 1, 7]),
        80..=96 => rng.below(8) as u8,
        _ => rng.pick(&[8, 9, 255]),
    }
}

pub fn index(rng: &mut Rng) -> u8 {
    if rng.percent(97) {
        rng.below(8) as u8
    } else {
        rng.pick(&[8, 9, 255])
    }
}

/// Mostly one that can be set.
fn priority(rng: &mut Rng) -> u8 {
    if rng.percent(85) {
        any_priority(rng)
    } else {
        rng.pick(EDGE_PRIORITIES)
    }
}

/// Few of them come often, so that some sleepers are equal.
pub fn any_priority(rng: &mut Rng) -> u8 {
    if rng.percent(60) {
        rng.pick(&[0, 1, 30, HIGHEST_PRIORITY])
    } else {
        rng.below(1 + u64::from(HIGHEST_PRIORITY)) as u8
    }
}

pub fn address(rng: &mut Rng) -> u32 {
    match rng.below(100) {
        0..=84 => rng.pick(&[0, 4, 8]),
        85..=93 => rng.pick(GOOD_ADDRESSES),
        _ => rng.pick(EDGE_ADDRESSES),
    }
}

/// A second address is an edge more often: what is wrong with it shows only
/// where the caps and the first address are good.
fn second_address(rng: &mut Rng) -> u32 {
    match rng.below(100) {
        0..=79 => rng.pick(&[0, 4, 8]),
        80..=87 => rng.pick(GOOD_ADDRESSES),
        _ => rng.pick(EDGE_ADDRESSES),
    }
}

fn value(rng: &mut Rng) -> u32 {
    match rng.below(100) {
        0..=84 => rng.below(4) as u32,
        85..=96 => rng.pick(EDGE_U32),
        _ => rng.u32(),
    }
}

/// What a store leaves for WAKE_OP to compare.
fn stored(rng: &mut Rng) -> u32 {
    if rng.percent(40) {
        rng.pick(EDGE_WORDS) as u32
    } else {
        value(rng)
    }
}

fn cap(rng: &mut Rng) -> u32 {
    if rng.percent(85) {
        rng.below(5) as u32
    } else {
        rng.pick(EDGE_U32)
    }
}

fn mask(rng: &mut Rng) -> u32 {
    match rng.below(100) {
        0..=89 => rng.pick(MASKS),
        90..=93 => 0,
        _ => rng.u32(),
    }
}

/// A time a little before or after the clock, or an edge.
fn near_clock(rng: &mut Rng, clock: u64) -> u64 {
    match rng.below(100) {
        0..=9 => clock.saturating_sub(rng.below(3)),
        10..=98 => clock.saturating_add(rng.below(12)),
        // Rare, since the clock can't come back from an edge.
        _ => rng.pick(EDGE_U64),
    }
}

/// A command number with its option bits, mostly a good one.
fn op(rng: &mut Rng) -> u32 {
    let command = match rng.below(100) {
        0..=29 => WAIT,
        30..=51 => WAIT_BITSET,
        // It has the most to try.
        52..=56 => WAKE_OP,
        57..=97 => rng.pick(COMMANDS),
        _ => rng.below(16) as u32,
    };
    let bits = match rng.below(100) {
        0..=64 => 0,
        65..=95 => 128,
        96..=97 => rng.pick(&[256, 512, 384, 640, 768, 896]),
        _ => 1 << rng.below(32),
    };
    command | bits
}

fn flag(rng: &mut Rng) -> u8 {
    if rng.percent(95) {
        rng.below(2) as u8
    } else {
        rng.pick(&[2, 255])
    }
}

/// Whether a caller names a thread, and that one sleeps.
pub fn sleeps(state: &State, who: (u8, u8)) -> bool {
    let (process, index) = (who.0 as usize, who.1 as usize);
    let inside = process < PROCESSES && index < THREADS_PER_PROCESS;
    inside && state.threads[THREADS_PER_PROCESS * process + index].waiting
}

/// A caller that can call: a running thread, if a few tries find one.
fn caller(rng: &mut Rng, state: &State) -> (u8, u8) {
    let mut who = (process(rng), index(rng));
    for attempt in 0..6 {
        if !sleeps(state, who) {
            return who;
        }
        // Others of the same process first, then anyone.
        let process = if attempt < 3 { who.0 } else { rng.below(8) as u8 };
        who = (process, rng.below(8) as u8);
    }
    who
}

/// The word at an address, where there is one: what a wait should expect.
pub fn word_at(words: &[u32], process: u8, address: u32) -> u32 {
    let number = WORDS_PER_PROCESS * process as usize + (address / 4) as usize;
    if address < FIRST_BAD_ADDRESS {
        words.get(number).copied().unwrap_or(0)
    } else {
        0
    }
}

/// A call. Arguments that its command doesn't use are mostly junk, to show
/// that nobody looks at them.
pub fn call(rng: &mut Rng, state: &State, words: &[u32]) -> Call {
    let (process, index) = caller(rng, state);
    let mut call = Call {
        process,
        index,
        op: op(rng),
        uaddr: address(rng),
        val: value(rng),
        flag: flag(rng),
        timeout: rng.pick(EDGE_U64),
        uaddr2: rng.pick(EDGE_ADDRESSES),
        val3: value(rng),
    };
    match call.op & 127 {
        WAIT | WAIT_BITSET => fit_wait(rng, state.clock, words, &mut call),
        WAKE | WAKE_BITSET => {
            call.val = cap(rng);
            call.val3 = mask(rng);
        }
        REQUEUE | CMP_REQUEUE | WAKE_OP => fit_second(rng, words, &mut call),
        _ => {}
    }
    call
}

fn fit_wait(rng: &mut Rng, clock: u64, words: &[u32], call: &mut Call) {
    if rng.percent(88) {
        call.val = word_at(words, call.process, call.uaddr);
    }
    call.val3 = mask(rng);
    if rng.percent(90) {
        call.timeout = if call.op & 127 == WAIT { rng.below(12) } else { near_clock(rng, clock) };
    }
}

fn fit_second(rng: &mut Rng, words: &[u32], call: &mut Call) {
    call.val = if rng.percent(80) { rng.below(3) as u32 } else { cap(rng) };
    call.uaddr2 = second_address(rng);
    call.timeout = if rng.percent(90) { cap(rng) as u64 } else { rng.pick(EDGE_U64) };
    if rng.percent(20) {
        // Only the low 32 bits are the second cap.
        call.timeout = call.timeout % (1 << 32) + (rng.below(4) << 32);
    }
    if call.op & 127 == WAKE_OP {
        call.val3 = operation(rng, word_at(words, call.process, call.uaddr2));
    } else if rng.percent(85) {
        call.val3 = word_at(words, call.process, call.uaddr);
    }
}

/// WAKE_OP's val3 for an old word: mostly defined operations, small and edge
/// operands.
pub fn operation(rng: &mut Rng, old: u32) -> u32 {
    let action = if rng.percent(92) { rng.below(5) } else { rng.below(8) } as u32;
    let shift = rng.below(2) as u32 * 8;
    let cmp = if rng.percent(92) { rng.below(6) } else { rng.below(16) } as u32;
    let oparg = if rng.percent(90) { rng.pick(EDGE_OPARGS) } else { any_argument(rng) };
    s::val3(action | shift, cmp, oparg, cmparg(rng, old))
}

/// The old word or a neighbour of it, as far as 12 bits reach, comes often:
/// otherwise some comparisons would nearly always go the same way.
fn cmparg(rng: &mut Rng, old: u32) -> i32 {
    match rng.below(100) {
        0..=34 => {
            let near = (old as i32).saturating_add(rng.below(3) as i32 - 1);
            near.clamp(-2048, 2047)
        }
        35..=89 => rng.pick(EDGE_CMPARGS),
        _ => any_argument(rng),
    }
}

/// Any number that an oparg or a cmparg can be.
fn any_argument(rng: &mut Rng) -> i32 {
    rng.below(4096) as i32 - 2048
}
