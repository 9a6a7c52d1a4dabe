//! Events at random: calls that mostly pass the tests, so that threads sleep,
//! wake, move and time out, and arguments at the edges of every field.

use second::model::{
    Call, Event, State, CMP_REQUEUE, HIGHEST_PRIORITY, REQUEUE, THREADS, THREADS_PER_PROCESS, WAIT,
    WAIT_BITSET, WAKE, WAKE_BITSET, WAKE_OP, WORDS_PER_PROCESS,
};
use second::rng::Rng;
use second::shorthand;

pub const EDGE_U64: &[u64] = &[
    0,
    1,
    (1 << 31) - 1,
    1 << 31,
    (1 << 32) - 1,
    1 << 32,
    (1 << 32) + 1,
    (1 << 32) + (1 << 31),
    (1 << 63) - 1,
    1 << 63,
    u64::MAX - 1,
    u64::MAX,
];
const EDGE_U32: &[u32] = &[
    0,
    1,
    3,
    4,
    4092,
    4094,
    4095,
    4096,
    4097,
    8192,
    (1 << 31) - 1,
    1 << 31,
    (1 << 31) + 1,
    u32::MAX - 3,
    u32::MAX - 1,
    u32::MAX,
];
/// The edges of what WAKE_OP compares, signed: 0 and 1, the ends of the twelve
/// bits of a cmparg and one beyond them, the ends of a word.
const EDGE_WORDS: &[u32] =
    &[0, 1, 2047, 2048, (1 << 31) - 1, 1 << 31, u32::MAX - 2048, u32::MAX - 2047, u32::MAX];
/// Of oparg and cmparg.
const EDGE_FIELDS: &[i32] =
    &[-2048, -2047, -33, -32, -31, -2, -1, 0, 1, 2, 3, 31, 32, 33, 2046, 2047];
const EDGE_OPS: &[u32] = &[
    0,
    1,
    2,
    3,
    4,
    5,
    6,
    7,
    8,
    9,
    10,
    11,
    12,
    13,
    14,
    16,
    64,
    127,
    128,
    129,
    131,
    132,
    133,
    137,
    138,
    256,
    257,
    265,
    384,
    512,
    521,
    640,
    65536,
    1 << 31,
    u32::MAX,
];
const EDGE_U8: &[u8] = &[0, 1, 7, 8, 9, 63, 64, 127, 128, 255];
const EDGE_PRIORITIES: &[u8] = &[0, 1, 30, 31, 32, 33, 63, 64, 95, 127, 128, 159, 254, 255];
/// Few addresses, so that sleepers meet.
pub const ADDRESSES: &[u32] = &[0, 0, 4, 4, 8, 12, 2048, 4088, 4092];
pub const MASKS: &[u32] = &[1, 2, 3, 4, 6, 1 << 31, u32::MAX];
const COMMANDS: &[u32] = &[WAIT, WAIT_BITSET, WAKE, WAKE_BITSET, REQUEUE, CMP_REQUEUE, WAKE_OP];
const WAKES: &[u32] = &[WAKE, WAKE, WAKE_BITSET, REQUEUE, CMP_REQUEUE, WAKE_OP];

/// What a stretch of events leans to.
#[derive(Clone, Copy)]
pub struct Mood {
    /// Of a hundred calls, how many are waits.
    waits: u64,
    /// Of a hundred events, how many have an argument at an edge.
    edges: u64,
    /// Of a hundred events, how many have arguments that -22 refuses, if they are
    /// calls or set a priority.
    faults: u64,
    /// Of a hundred events, how many are no calls.
    others: u64,
    /// Of a hundred wakes, how many take all.
    all: u64,
    /// Of a hundred events, how many set a priority.
    priorities: u64,
    /// How many processes take part.
    processes: u64,
    /// Of a hundred waits, how many have a timeout.
    timed: u64,
}

const MOODS: &[Mood] = &[
    Mood { waits: 50, edges: 10, faults: 3, others: 20, priorities: 12, ..PLAIN },
    Mood { waits: 60, others: 15, all: 10, priorities: 25, processes: 2, timed: 40, ..PLAIN },
    // Nobody goes before another but by arrival, as far as this mood goes.
    Mood { waits: 60, others: 15, all: 10, priorities: 0, processes: 3, timed: 30, ..PLAIN },
    // The list fills up, to 64 in the end,
    Mood { waits: 97, edges: 2, faults: 1, others: 5, all: 0, timed: 10, ..PLAIN },
    // or is drained by wakes, or by the clock.
    Mood { waits: 10, others: 10, all: 60, ..PLAIN },
    Mood { waits: 80, edges: 2, faults: 1, others: 35, processes: 4, timed: 95, ..PLAIN },
];

/// What most moods share.
const PLAIN: Mood = Mood {
    waits: 50,
    edges: 5,
    faults: 5,
    others: 20,
    all: 5,
    priorities: 8,
    processes: 8,
    timed: 50,
};

/// Each argument at an edge now and then: one to three of them at once.
pub const EDGES: Mood =
    Mood { waits: 40, edges: 90, faults: 25, all: 10, priorities: 10, timed: 60, ..PLAIN };

pub fn mood(rng: &mut Rng) -> Mood {
    rng.pick(MOODS)
}

/// The next event on these tables and words.
pub fn next(rng: &mut Rng, mood: Mood, state: &State, words: &[u32]) -> Event {
    let mut event = if rng.percent(mood.priorities) {
        set_priority(rng, mood, state)
    } else if rng.percent(mood.others) {
        other(rng, mood, state)
    } else {
        Event::Call(call(rng, mood, state, words))
    };
    if rng.percent(mood.edges) {
        for _ in 0..1 + rng.below(3) {
            put_edge(rng, &mut event);
        }
    }
    if rng.percent(mood.faults) {
        for _ in 0..1 + rng.below(3) {
            put_fault(rng, &mut event);
        }
    }
    event
}

fn other(rng: &mut Rng, mood: Mood, state: &State) -> Event {
    let process = rng.below(mood.processes) as u8;
    let index = rng.below(8) as u8;
    match rng.below(10) {
        0..=2 => Event::Store { process, address: rng.pick(ADDRESSES), value: small(rng) },
        3..=5 => Event::Clock { time: time_near(rng, state) },
        6..=7 => Event::Interrupt { process, index },
        _ => Event::Query { process },
    }
}

/// Half of them for a sleeper, so that the order at its word changes.
fn set_priority(rng: &mut Rng, mood: Mood, state: &State) -> Event {
    let (mut process, mut index) = (rng.below(mood.processes) as u8, rng.below(8) as u8);
    if state.count > 0 && rng.percent(50) {
        let number = state.list[rng.below(state.count) as usize];
        (process, index) = (number / 8, number % 8);
    }
    Event::SetPriority { process, index, priority: priority(rng) }
}

/// One that can be set; the ends come often, so that some are equal.
pub fn priority(rng: &mut Rng) -> u8 {
    if rng.percent(40) {
        rng.pick(&[0, 0, 1, 30, HIGHEST_PRIORITY])
    } else {
        rng.below(1 + u64::from(HIGHEST_PRIORITY)) as u8
    }
}

/// Mostly small, so that words are equal often.
fn small(rng: &mut Rng) -> u32 {
    match rng.below(20) {
        0..=1 => rng.pick(EDGE_U32),
        2..=5 => rng.pick(EDGE_WORDS),
        _ => rng.below(4) as u32,
    }
}

/// A time at a sleeper's deadline, just before or after it, or near the clock.
fn time_near(rng: &mut Rng, state: &State) -> u64 {
    let thread = &state.threads[rng.below(THREADS as u64) as usize];
    match rng.below(20) {
        0..=5 if thread.timed => thread.deadline - 1 + rng.below(2),
        0..=5 => state.clock,
        6..=7 => state.clock.saturating_sub(1 + rng.below(3)),
        8 => state.clock,
        _ => state.clock.saturating_add(rng.below(6)),
    }
}

/// A caller that can call: the first running thread after a random one. Now
/// and then any thread, so that sleepers call too.
fn caller(rng: &mut Rng, mood: Mood, state: &State) -> (u8, u8) {
    let threads = 8 * mood.processes as usize;
    let mut number = rng.below(threads as u64) as usize;
    if !rng.percent(3) {
        for _ in 0..threads {
            if !state.threads[number].waiting {
                break;
            }
            number = (number + 1) % threads;
        }
    }
    (number as u8 / 8, number as u8 % 8)
}

fn call(rng: &mut Rng, mood: Mood, state: &State, words: &[u32]) -> Call {
    let (process, index) = caller(rng, mood, state);
    let command =
        if rng.percent(mood.waits) { rng.pick(&[WAIT, WAIT_BITSET]) } else { rng.pick(WAKES) };
    let uaddr = first_address(rng, state, process);
    let mut call = Call {
        process,
        index,
        op: command | if rng.percent(30) { 128 } else { 0 },
        uaddr,
        // What a command doesn't use is junk, to show that nobody looks.
        val: rng.u32(),
        flag: rng.u64() as u8,
        timeout: rng.u64(),
        uaddr2: rng.u32(),
        val3: rng.u32(),
    };
    // The words of the caller's process.
    let words = &words[WORDS_PER_PROCESS * process as usize..][..WORDS_PER_PROCESS];
    let word = words[uaddr as usize / 4];
    match command {
        WAIT | WAIT_BITSET => fit_wait(rng, mood, state.clock, word, &mut call),
        WAKE | WAKE_BITSET => call.val = cap(rng, mood),
        _ => fit_second(rng, mood, state, words, &mut call),
    }
    if matches!(command, WAIT_BITSET | WAKE_BITSET) {
        call.val3 = rng.pick(MASKS);
    }
    call
}

fn fit_wait(rng: &mut Rng, mood: Mood, clock: u64, word: u32, call: &mut Call) {
    call.val = if rng.percent(92) { word } else { small(rng) };
    call.flag = if rng.percent(mood.timed) { rng.pick(&[1, 1, 1, 2, 255]) } else { 0 };
    if call.flag != 0 && !rng.percent(3) {
        let ahead = if rng.percent(6) { 0 } else { 1 + rng.below(30) };
        let relative = call.op & 127 == WAIT;
        call.timeout = if relative { ahead } else { clock.saturating_add(ahead) };
    }
}

fn cap(rng: &mut Rng, mood: Mood) -> u32 {
    if rng.percent(mood.all) {
        rng.pick(&[i32::MAX as u32, 64, 8])
    } else {
        rng.below(4) as u32
    }
}

/// Mostly where somebody sleeps, so that sleepers meet and wakes have a choice.
fn first_address(rng: &mut Rng, state: &State, process: u8) -> u32 {
    let met = if rng.percent(60) { slept_at(rng, state, process) } else { None };
    met.unwrap_or_else(|| rng.pick(ADDRESSES))
}

/// An address where a thread of the caller's process sleeps.
fn slept_at(rng: &mut Rng, state: &State, process: u8) -> Option<u32> {
    let count = THREADS_PER_PROCESS;
    let threads = &state.threads[count * process as usize..][..count];
    let from = rng.below(count as u64) as usize;
    let mut sleepers = (from..from + count).map(|n| threads[n % count]).filter(|t| t.waiting);
    sleepers.next().map(|thread| thread.uaddr)
}

fn fit_second(rng: &mut Rng, mood: Mood, state: &State, words: &[u32], call: &mut Call) {
    call.val = cap(rng, mood);
    call.uaddr2 = rng.pick(ADDRESSES);
    // Only the low 32 bits are the second cap.
    call.timeout = cap(rng, mood) as u64 + (rng.below(3) << 32);
    match call.op & 127 {
        WAKE_OP => fit_operation(rng, state, words, call),
        CMP_REQUEUE => {
            let word = words[call.uaddr as usize / 4];
            call.val3 = if rng.percent(90) { word } else { small(rng) };
        }
        _ => {}
    }
}

/// A WAKE_OP whose second word mostly has a sleeper, by whom its comparison
/// is seen, and now and then is the first word, too.
fn fit_operation(rng: &mut Rng, state: &State, words: &[u32], call: &mut Call) {
    if rng.percent(80) {
        call.uaddr2 = slept_at(rng, state, call.process).unwrap_or(call.uaddr2);
    }
    if rng.percent(20) {
        call.uaddr = call.uaddr2;
    }
    call.val3 = operation(rng, words[call.uaddr2 as usize / 4]);
}

/// WAKE_OP's val3: mostly defined. oparg and cmparg are at an edge or anything;
/// cmparg is also the old word, or next to it.
fn operation(rng: &mut Rng, old: u32) -> u32 {
    let op = if rng.percent(95) { rng.below(5) + 8 * rng.below(2) } else { rng.below(16) };
    let cmp = if rng.percent(95) { rng.below(6) } else { rng.below(16) };
    let oparg = if rng.percent(75) { rng.pick(EDGE_FIELDS) } else { rng.u32() as i32 };
    let cmparg = match rng.below(5) {
        0 => rng.u32() as i32,
        1..=2 => (old as i32).wrapping_add(rng.pick(&[-1, 0, 0, 1])),
        _ => rng.pick(EDGE_FIELDS),
    };
    shorthand::val3(op as u32, cmp as u32, oparg, cmparg)
}

/// Puts one argument at an edge.
fn put_edge(rng: &mut Rng, event: &mut Event) {
    match event {
        Event::Call(call) => match rng.below(10) {
            0 => call.process = rng.pick(EDGE_U8),
            1 => call.index = rng.pick(EDGE_U8),
            2 => call.op = rng.pick(EDGE_OPS),
            3 => call.op = rng.pick(COMMANDS) | 1 << rng.below(32),
            4 => call.uaddr = rng.pick(EDGE_U32),
            5 => call.val = rng.pick(EDGE_U32),
            6 => call.flag = rng.pick(EDGE_U8),
            7 => call.timeout = rng.pick(EDGE_U64),
            8 => call.uaddr2 = if rng.percent(25) { call.uaddr } else { rng.pick(EDGE_U32) },
            _ => call.val3 = if rng.percent(50) { rng.pick(EDGE_U32) } else { rng.u32() },
        },
        Event::Store { process, address, value } => match rng.below(3) {
            0 => *process = rng.pick(EDGE_U8),
            1 => *address = rng.pick(EDGE_U32),
            _ => *value = rng.pick(EDGE_U32),
        },
        // The clock can't come back from an edge.
        Event::Clock { time } if rng.percent(5) => *time = rng.pick(EDGE_U64),
        Event::Clock { .. } => {}
        Event::Interrupt { process, index } => match rng.below(2) {
            0 => *process = rng.pick(EDGE_U8),
            _ => *index = rng.pick(EDGE_U8),
        },
        Event::SetPriority { process, index, priority } => match rng.below(3) {
            0 => *process = rng.pick(EDGE_U8),
            1 => *index = rng.pick(EDGE_U8),
            _ => *priority = rng.pick(EDGE_PRIORITIES),
        },
        Event::Query { process } => *process = rng.pick(EDGE_U8),
    }
}

/// Gives one argument a value that -22 refuses. Stores and clock events have
/// theirs among the edges.
fn put_fault(rng: &mut Rng, event: &mut Event) {
    match event {
        Event::Call(call) => put_call_fault(rng, call),
        Event::SetPriority { priority, .. } => {
            *priority = 1 + HIGHEST_PRIORITY + rng.below(255 - u64::from(HIGHEST_PRIORITY)) as u8;
        }
        _ => {}
    }
}

/// It is refused only if the command uses the argument.
fn put_call_fault(rng: &mut Rng, call: &mut Call) {
    let above = &[1 << 31, (1 << 31) + 1, u32::MAX];
    match rng.below(6) {
        0 => call.val = rng.pick(above),
        1 => call.timeout = rng.pick(above) as u64 + (rng.below(3) << 32),
        2 => call.val3 = 0,
        3 => call.uaddr |= 1 + rng.below(3) as u32,
        4 => call.uaddr2 |= 1 + rng.below(3) as u32,
        _ => call.uaddr2 = call.uaddr,
    }
}

/// Words at random: most are small, so that they are equal often. Eight come
/// from one random number, for speed.
pub fn fill_words(rng: &mut Rng, words: &mut [u32]) {
    let choices: [u32; 256] = std::array::from_fn(|byte| match byte {
        0..160 => byte as u32 % 4,
        160..240 => EDGE_WORDS[byte % EDGE_WORDS.len()],
        _ => EDGE_U32[byte % EDGE_U32.len()],
    });
    for eight in words.chunks_mut(8) {
        for (word, byte) in eight.iter_mut().zip(rng.u64().to_le_bytes()) {
            *word = choices[byte as usize];
        }
    }
}
