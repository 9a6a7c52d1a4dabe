//! Tables to try single events on: sound ones, ones with one rule broken, one
//! byte changed, random bytes, and wrong lengths.

use second::generate::tables::{Break, LAST_BREAKS, LIST_BREAKS, PRIORITY_BREAKS, RECORD_BREAKS};
use second::layout::{self, LAST, TABLE_BYTES, TIMED, WAITING};
use second::model::{State, THREADS};
use second::rng::Rng;

use crate::events::{self, ADDRESSES, EDGE_U64, MASKS};

/// Sound tables with this many sleepers.
pub fn sound(rng: &mut Rng, sleepers: usize) -> State {
    let mut state = State::fresh();
    state.clock = match rng.below(8) {
        0 => rng.pick(EDGE_U64),
        1 => u64::MAX - rng.below(4),
        _ => rng.below(100),
    };
    let levels = levels(rng);
    for thread in &mut state.threads {
        thread.last = rng.below(4) as u8;
        thread.priority = rng.pick(&levels);
    }
    let mut numbers: [usize; THREADS] = std::array::from_fn(|number| number);
    for place in 0..sleepers {
        numbers.swap(place, place + rng.below((THREADS - place) as u64) as usize);
        let deadline = deadline_above(rng, state.clock);
        state.join(numbers[place], rng.pick(ADDRESSES), rng.pick(MASKS), deadline);
    }
    state
}

/// The priorities that tables have: one, or two, or any.
fn levels(rng: &mut Rng) -> Vec<u8> {
    let count = rng.pick(&[1, 2, 3, 64, 64]);
    (0..count).map(|_| events::priority(rng)).collect()
}

/// None, or one above the clock; above the last clock there is none.
fn deadline_above(rng: &mut Rng, clock: u64) -> Option<u64> {
    if clock == u64::MAX || rng.percent(40) {
        return None;
    }
    let time = match rng.below(8) {
        0 => rng.pick(EDGE_U64),
        1 => u64::MAX,
        _ => clock.saturating_add(1 + rng.below(20)),
    };
    Some(time.max(clock + 1))
}

/// How many sleepers: all numbers from 0 to 64, the ends more often.
pub fn sleepers(rng: &mut Rng) -> usize {
    match rng.below(10) {
        0 => rng.below(4) as usize,
        1 => 61 + rng.below(4) as usize,
        _ => rng.below(65) as usize,
    }
}

/// How many ways `break_rule` has.
pub const BREAKS: usize = STATE_BREAKS + FLAG_BREAKS.len();
/// Those that break what the bytes stand for.
const STATE_BREAKS: usize =
    LIST_BREAKS.len() + RECORD_BREAKS.len() + LAST_BREAKS.len() + PRIORITY_BREAKS.len();

/// Flag bytes that stand for nothing: the column and the byte.
const FLAG_BREAKS: &[(usize, u8)] = &[
    (WAITING, 2),
    (WAITING, 3),
    (WAITING, 128),
    (WAITING, 129),
    (WAITING, 255),
    (TIMED, 2),
    (TIMED, 3),
    (TIMED, 128),
    (TIMED, 129),
    (TIMED, 255),
    (LAST, 4),
    (LAST, 5),
    (LAST, 128),
    (LAST, 255),
];

fn state_break(which: usize) -> Option<Break> {
    let of_records = RECORD_BREAKS.iter().chain(LAST_BREAKS).chain(PRIORITY_BREAKS);
    LIST_BREAKS.iter().chain(of_records).nth(which).copied()
}

/// Breaks one rule of sound tables that have a sleeper and a running thread,
/// at a sleeper and a running thread picked at random.
pub fn break_rule(rng: &mut Rng, mut state: State, which: usize) -> Vec<u8> {
    let sleeper = state.list[rng.below(state.count) as usize] as usize;
    let mut running = rng.below(THREADS as u64) as usize;
    while state.threads[running].waiting {
        running = (running + 1) % THREADS;
    }
    if let Some(breaks) = state_break(which) {
        breaks(&mut state, sleeper, running);
        return layout::encode(&state).to_vec();
    }
    let mut bytes = layout::encode(&state).to_vec();
    let (column, byte) = FLAG_BREAKS[which - STATE_BREAKS];
    bytes[column + rng.pick(&[sleeper, running])] = byte;
    bytes
}

/// Changes one byte of sound tables; many of these stay sound.
pub fn change_byte(rng: &mut Rng, state: &State) -> Vec<u8> {
    let mut bytes = layout::encode(state).to_vec();
    let at = rng.below(TABLE_BYTES as u64) as usize;
    bytes[at] = match rng.below(4) {
        0 => rng.u64() as u8,
        1 => bytes[at].wrapping_add(1),
        2 => rng.pick(&[0, 1, 31, 32, 63, 64, 128, 255]),
        _ => bytes[at] ^ (1 << rng.below(8)),
    };
    bytes
}

/// Bytes of a wrong length, sound tables as far as they go; 1,296 end where the
/// priorities begin.
pub fn wrong_length(rng: &mut Rng, state: &State) -> Vec<u8> {
    let length = rng.pick(&[0, 1, 8, 16, 784, 1288, 1295, 1296, 1297, 1359, 1361, 1368, 2720]);
    let mut bytes = layout::encode(state).to_vec();
    bytes.resize(length, 0);
    bytes
}

pub fn random_bytes(rng: &mut Rng) -> Vec<u8> {
    (0..TABLE_BYTES / 8).flat_map(|_| rng.u64().to_le_bytes()).collect()
}
