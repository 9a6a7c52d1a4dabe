//! Request (vii) of document 02: wakes and requeues take the sleepers of a word by
//! higher base priority, and by arrival among equals. Every command and cap at words
//! with few and with many sleepers, other processes, the full list, and what comes
//! in between.

mod between;
mod bitsets;
mod crowd;
mod equal;
mod operations;
mod requeues;
mod rows;
mod strangers;
mod wakes;

use super::set;
use crate::model::{State, HIGHEST_PRIORITY};
use crate::rng::Rng;
use crate::script::Script;
use crate::shorthand::Who;

pub fn add(script: &mut Script) {
    equal::add(script);
    rows::add(script);
    wakes::add(script);
    bitsets::add(script);
    requeues::add(script);
    operations::add(script);
    strangers::add(script);
    crowd::add(script);
    between::add(script);
}

/// The order in which a process's threads come, so that neither their numbers nor
/// their places say who goes first. The last one is awake unless all sleep.
const COMERS: [u8; 8] = [3, 0, 6, 1, 5, 2, 4, 7];
const WHO: Who = (0, COMERS[7]);
/// All that there are.
const ALL: u32 = 2147483647;
/// Both caps of a call.
type Caps = (u32, u64);
const CAPS: [Caps; 7] = [(0, 0), (0, 1), (1, 0), (1, 1), (1, ALL as u64), (2, 2), (ALL, 0)];
/// WAKE_OP whose comparison is true on a word of 0, and one whose is false. Both
/// add 1.
const TRUE: u32 = 0x1000_1000;
const FALSE: u32 = 0x1100_1000;

/// The priority of a sleeper by its place among so many.
type Pattern = fn(usize, usize) -> u8;

/// Equal, rising, falling, two levels next to each other and far apart, one above
/// all others at each kind of place, and both ends with the one below the highest.
const PATTERNS: &[Pattern] = &[
    |_, _| 9,
    |place, _| 24 + place as u8,
    |place, _| HIGHEST_PRIORITY - place as u8,
    |place, _| 30 + place as u8 % 2,
    |place, _| if place % 2 == 0 { 31 } else { 0 },
    |place, count| if place + 1 == count { 31 } else { 30 },
    |place, count| (place == count / 2) as u8,
    |place, _| [30, 0, 31][place % 3],
];

/// The priorities of so many sleepers, in the order in which they come: the patterns
/// above, and two rows at random, one of few levels.
fn patterns(count: usize) -> Vec<Vec<u8>> {
    let mut rng = Rng::new(count as u64);
    let row = |pattern: &Pattern| (0..count).map(|place| pattern(place, count)).collect();
    let mut rows: Vec<Vec<u8>> = PATTERNS.iter().map(row).collect();
    rows.push((0..count).map(|_| rng.below(32) as u8).collect());
    rows.push((0..count).map(|_| rng.pick(&[0, 15, 31])).collect());
    // Few sleepers make some of them alike.
    rows.sort();
    rows.dedup();
    rows
}

/// Puts threads of process 0 to sleep at an address, after those that sleep already.
/// Every second one has a deadline.
fn join(state: &mut State, address: u32, row: &[u8]) {
    let asleep = COMERS.iter().filter(|&&index| state.threads[index as usize].waiting).count();
    for (&index, &priority) in COMERS[asleep..].iter().zip(row) {
        let number = index as usize;
        let deadline = (index % 2 == 1).then_some(100 + u64::from(index));
        state.join(number, address, 1 + u32::from(index) % 3, deadline);
        state.threads[number].priority = priority;
    }
}

/// Sleepers of process 0 at 8, and after them others at 16.
fn at_two(row: &[u8], others: &[u8]) -> State {
    let mut state = State::fresh();
    join(&mut state, 8, row);
    join(&mut state, 16, others);
    state
}
