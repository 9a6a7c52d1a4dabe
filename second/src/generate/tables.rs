//! Sound tables at random, and each single table rule broken in turn.

use super::events::{any_priority, EDGE_U64, GOOD_ADDRESSES, MASKS};
use crate::model::{State, Thread, NO_ENTRY, NO_SLEEP_ENDED, THREADS};
use crate::rng::Rng;
use crate::script::{self, Record};

/// Tables that keep every rule, with any number of sleepers.
pub fn sound(rng: &mut Rng) -> State {
    let sleepers = match rng.below(10) {
        0..=4 => rng.below(6),
        5..=7 => rng.below(64),
        8 => 63,
        _ => rng.below(65),
    } as usize;
    with_sleepers(rng, sleepers)
}

/// Tables that keep every rule, with so many sleepers.
pub fn with_sleepers(rng: &mut Rng, sleepers: usize) -> State {
    let mut state = State::fresh();
    state.clock = match rng.below(4) {
        0 => rng.pick(EDGE_U64),
        1 => u64::MAX - rng.below(4),
        _ => rng.below(20),
    };
    state.threads.iter_mut().for_each(|thread| thread.last = rng.below(4) as u8);
    set_priorities(rng, &mut state);
    for number in shuffled(rng).into_iter().take(sleepers) {
        let uaddr = if rng.percent(80) { rng.pick(&[0, 4, 8]) } else { rng.pick(GOOD_ADDRESSES) };
        let bitset = rng.pick(MASKS);
        let deadline = deadline_above(rng, state.clock);
        state.join(number, uaddr, bitset, deadline);
    }
    state
}

/// All equal, or of two or three that are next to each other or far apart, or any.
pub fn set_priorities(rng: &mut Rng, state: &mut State) {
    let one = any_priority(rng);
    let levels = match rng.below(10) {
        0 => vec![one],
        1..=2 => vec![one, (one + 1 + rng.below(31) as u8) % 32],
        3..=5 => vec![0, 30, 31],
        _ => (0..=31).collect(),
    };
    state.threads.iter_mut().for_each(|thread| thread.priority = rng.pick(&levels));
}

fn shuffled(rng: &mut Rng) -> [usize; THREADS] {
    let mut numbers = std::array::from_fn(|number| number);
    for place in (1..THREADS).rev() {
        numbers.swap(place, rng.below(place as u64 + 1) as usize);
    }
    numbers
}

/// No deadline, or one above the clock; at the last clock there can be none.
fn deadline_above(rng: &mut Rng, clock: u64) -> Option<u64> {
    if clock == u64::MAX || rng.percent(50) {
        return None;
    }
    let time = match rng.below(4) {
        0 => rng.pick(EDGE_U64),
        1 => u64::MAX,
        _ => clock.saturating_add(1 + rng.below(8)),
    };
    Some(if time > clock { time } else { clock + 1 })
}

/// Sound tables in which every break below breaks a rule: sleepers of two
/// processes, one with a deadline, and threads that have slept before.
pub fn base() -> State {
    let mut state = State::fresh();
    state.clock = 50;
    state.threads[3].last = 2;
    state.threads[9].last = 1;
    state.join(0, 8, u32::MAX, None);
    state.join(9, 12, 3, Some(100));
    state.join(1, 8, 2, Some(u64::MAX));
    state
}

/// All threads, in an order that mixes the processes (37 and 64 have no common
/// divisor).
pub fn mixed() -> impl Iterator<Item = usize> {
    (0..THREADS).map(|place| place * 37 % THREADS)
}

/// Sound tables where every thread but one sleeps.
pub fn nearly_full(awake: usize) -> State {
    let mut state = State::fresh();
    state.clock = 50;
    state.threads[awake].last = 1;
    for number in mixed().filter(|&number| number != awake) {
        let uaddr = if number % 3 == 0 { 12 } else { 8 };
        let deadline = (number % 2 == 0).then_some(100 + number as u64);
        state.join(number, uaddr, 1 + number as u32 % 3, deadline);
    }
    state
}

/// Breaks one rule of tables that have a sleeper and room for two on the list.
/// It is given the first listed sleeper and a running thread.
pub type Break = fn(&mut State, usize, usize);

/// The rules of the list.
pub const LIST_BREAKS: &[Break] = &[
    |s, _, _| s.count = 65,
    |s, _, _| s.count = 64,
    |s, _, _| s.count = 255,
    |s, _, _| s.count += 256,
    |s, _, _| s.count += 1 << 32,
    |s, _, _| s.count += 1 << 63,
    |s, _, _| s.count = u64::MAX,
    |s, _, _| s.count -= 1,
    |s, _, _| s.count += 1,
    |s, _, _| s.count = 0,
    |s, _, _| s.list[0] = 64,
    |s, _, _| s.list[0] += 64,
    |s, _, _| s.list[0] = NO_ENTRY,
    |s, _, running| s.list[0] = running as u8,
    // A thread listed twice, the set of listed threads still being right.
    |s, sleeper, _| append(s, sleeper as u8),
    // A thread listed twice, and another sleeper not: as many are listed as wait.
    |s, sleeper, _| s.list[(s.count as usize).max(2) - 1] = sleeper as u8,
    // A running thread listed besides all the waiting ones.
    |s, _, running| append(s, running as u8),
    |s, _, _| append(s, 200),
    // Later entries that aren't 255.
    |s, sleeper, _| s.list[s.count as usize] = sleeper as u8,
    |s, _, running| s.list[63] = running as u8,
    |s, _, _| s.list[63] = 254,
    |s, _, _| s.list[62] = 64,
    |s, _, _| s.list[62] = 0,
];

/// The rules of the records, but for the last answer and the priority.
pub const RECORD_BREAKS: &[Break] = &[
    // Waiting, but not listed; listed, but not waiting.
    |s, _, running| s.threads[running] = waiter(4, 1, None),
    |s, sleeper, _| s.threads[sleeper] = Thread::running(NO_SLEEP_ENDED, 0),
    |s, sleeper, _| s.threads[sleeper].waiting = false,
    |s, _, running| s.threads[running].waiting = true,
    // A running record without its zeros.
    |s, _, running| s.threads[running].uaddr = 4,
    |s, _, running| s.threads[running].bitset = 1,
    |s, _, running| s.threads[running].timed = true,
    |s, _, running| s.threads[running].deadline = u64::MAX,
    |s, _, running| (s.threads[running].timed, s.threads[running].deadline) = (true, u64::MAX),
    // A waiting record's address and mask.
    |s, sleeper, _| s.threads[sleeper].uaddr += 1,
    |s, sleeper, _| s.threads[sleeper].uaddr += 2,
    |s, sleeper, _| s.threads[sleeper].uaddr = 4094,
    |s, sleeper, _| s.threads[sleeper].uaddr = 4096,
    |s, sleeper, _| s.threads[sleeper].uaddr = 4097,
    |s, sleeper, _| s.threads[sleeper].uaddr = u32::MAX - 3,
    |s, sleeper, _| s.threads[sleeper].bitset = 0,
    // Its deadline: stored but not given, and given but not above the clock.
    |s, sleeper, _| set_deadline(s, sleeper, false, 1),
    |s, sleeper, _| set_deadline(s, sleeper, false, u64::MAX),
    |s, sleeper, _| set_deadline(s, sleeper, true, 0),
    |s, sleeper, _| set_deadline(s, sleeper, true, s.clock),
    |s, sleeper, _| set_deadline(s, sleeper, true, s.clock.saturating_sub(1)),
    |s, sleeper, _| {
        set_deadline(s, sleeper, true, u64::MAX - 1);
        s.clock = u64::MAX - 1;
    },
    |s, sleeper, _| {
        set_deadline(s, sleeper, true, u64::MAX);
        s.clock = u64::MAX;
    },
];

/// Last answers that stand for nothing. A script cannot make these.
pub const LAST_BREAKS: &[Break] = &[
    |s, sleeper, _| s.threads[sleeper].last = 4,
    |s, _, running| s.threads[running].last = 4,
    |s, _, running| s.threads[running].last = 255,
];

/// Priorities that are too high, of a thread that waits and of one that runs. With
/// one bit too many they look good where only the low five are looked at.
pub const PRIORITY_BREAKS: &[Break] = &[
    |s, sleeper, _| s.threads[sleeper].priority = 32,
    |s, _, running| s.threads[running].priority = 32,
    |s, sleeper, _| s.threads[sleeper].priority = 255,
    |s, _, running| s.threads[running].priority = 255,
    |s, sleeper, _| s.threads[sleeper].priority |= 32,
    |s, _, running| s.threads[running].priority |= 32,
    |s, sleeper, _| s.threads[sleeper].priority |= 64,
    |s, _, running| s.threads[running].priority |= 64,
    |s, sleeper, _| s.threads[sleeper].priority |= 128,
    |s, _, running| s.threads[running].priority |= 128,
];

/// What makes a list of 63 say 64 or more although a thread runs.
const OVERFULL_BREAKS: &[Break] = &[
    // The running thread listed behind the others, before them, among them.
    |s, _, running| append(s, running as u8),
    |s, _, running| insert(s, 0, running as u8),
    |s, _, running| insert(s, 31, running as u8),
    // The first or the last sleeper listed twice.
    |s, sleeper, _| append(s, sleeper as u8),
    |s, _, _| {
        let last = s.list[62];
        append(s, last);
    },
    // Entries that stand for no thread, the third being the running one if
    // only six bits are looked at.
    |s, _, _| append(s, NO_ENTRY),
    |s, _, _| append(s, 64),
    |s, _, running| append(s, 64 + running as u8),
    |s, _, _| append(s, 200),
    // More than 64. The sums look like 63 where a count is cut to 8 or 32 bits.
    |s, _, _| s.count = 65,
    |s, _, _| s.count += 256,
    |s, _, _| s.count = 1 << 32,
    |s, _, _| s.count += 1 << 32,
    |s, _, _| s.count = u64::MAX,
    // All 64 asleep, but that one record is set to running by its flag alone.
    |s, _, running| {
        s.join(running, 8, 1, Some(1000));
        s.threads[running].waiting = false;
    },
];

/// Tables whose list says 64 or more although this thread runs.
pub fn overfull(running: usize) -> Vec<State> {
    let sound = nearly_full(running);
    let sleeper = sound.list[0] as usize;
    let broken = |breaks: &Break| {
        let mut state = sound.clone();
        breaks(&mut state, sleeper, running);
        state
    };
    OVERFULL_BREAKS.iter().map(broken).collect()
}

/// Puts an entry at a place of the list; the last entry falls off.
fn insert(state: &mut State, place: usize, entry: u8) {
    state.list[place..].rotate_right(1);
    state.list[place] = entry;
    state.count += 1;
}

fn append(state: &mut State, entry: u8) {
    state.list[state.count as usize] = entry;
    state.count += 1;
}

fn waiter(uaddr: u32, bitset: u32, deadline: Option<u64>) -> Thread {
    let timed = deadline.is_some();
    let deadline = deadline.unwrap_or(0);
    let last = NO_SLEEP_ENDED;
    Thread { waiting: true, uaddr, bitset, timed, deadline, last, priority: 0 }
}

fn set_deadline(state: &mut State, number: usize, timed: bool, deadline: u64) {
    state.threads[number].timed = timed;
    state.threads[number].deadline = deadline;
}

/// Breaks a rule of sound tables, if they have the sleeper, the running thread
/// and the room that a break wants.
pub fn broken(mut state: State, breaks: Break) -> Option<State> {
    let running = state.threads.iter().position(|thread| !thread.waiting)?;
    if state.count == 0 || state.count > 61 {
        return None;
    }
    let sleeper = state.list[0] as usize;
    breaks(&mut state, sleeper, running);
    Some(state)
}

/// The script records that make these tables out of fresh ones.
pub fn pokes(state: &State) -> Vec<Record> {
    let mut records = vec![Record::Fresh];
    let mut poke = |field, index: usize, value: u64, fresh: u64| {
        if value != fresh {
            records.push(Record::Poke { field, index: index as u8, value });
        }
    };
    poke(script::CLOCK, 0, state.clock, 0);
    poke(script::COUNT, 0, state.count, 0);
    for (place, &entry) in state.list.iter().enumerate() {
        poke(script::LIST, place, entry as u64, NO_ENTRY as u64);
    }
    for (number, thread) in state.threads.iter().enumerate() {
        poke(script::WAITING, number, thread.waiting as u64, 0);
        poke(script::UADDR, number, thread.uaddr as u64, 0);
        poke(script::BITSET, number, thread.bitset as u64, 0);
        poke(script::TIMED, number, thread.timed as u64, 0);
        poke(script::DEADLINE, number, thread.deadline, 0);
        poke(script::LAST, number, thread.last as u64, 0);
        poke(script::PRIORITY, number, thread.priority as u64, 0);
    }
    records
}
