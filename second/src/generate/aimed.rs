//! Events at words where threads sleep, so that many meet there and many wakes and
//! requeues have somebody to choose from, and priorities for threads that sleep.

use super::events::{self, word_at, MASKS};
use crate::model::{Event, State, THREADS, THREADS_PER_PROCESS};
use crate::rng::Rng;
use crate::shorthand::{self as s, Who};

/// A listed thread; damaged tables may list what is none.
fn sleeper(rng: &mut Rng, state: &State) -> Option<usize> {
    let listed = state.count.min(THREADS as u64);
    let place = rng.below(listed.max(1)) as usize;
    let number = state.list[place] as usize;
    (number < THREADS).then_some(number)
}

/// How many sleep at the word of a thread.
fn company(state: &State, number: usize) -> usize {
    let process = number / THREADS_PER_PROCESS * THREADS_PER_PROCESS;
    let threads = &state.threads[process..process + THREADS_PER_PROCESS];
    let address = state.threads[number].uaddr;
    threads.iter().filter(|thread| thread.waiting && thread.uaddr == address).count()
}

/// A sleeper and a thread of its process that runs. Of three sleepers that are drawn
/// it is the one with the most company. None if no thread runs beside it.
fn sleeper_and_caller(rng: &mut Rng, state: &State) -> Option<(usize, Who)> {
    let drawn = [sleeper(rng, state)?, sleeper(rng, state)?, sleeper(rng, state)?];
    let number = drawn.into_iter().max_by_key(|&number| company(state, number))?;
    let process = (number / THREADS_PER_PROCESS) as u8;
    let from = rng.below(8) as u8;
    let mut callers = (0..8).map(|step| (process, (from + step) % 8));
    let who = callers.find(|&who| !events::sleeps(state, who))?;
    Some((number, who))
}

/// A mask that meets this one, or any.
fn mask(rng: &mut Rng, met: u32) -> u32 {
    match rng.below(10) {
        0..=5 => met & met.wrapping_neg(),
        _ => rng.pick(MASKS),
    }
}

/// Small, so that many are left for later.
fn cap(rng: &mut Rng) -> u32 {
    if rng.percent(95) {
        rng.pick(&[0, 1, 1, 1, 1, 2, 2, 3])
    } else {
        2147483647
    }
}

/// A wait at the word of a sleeper; or a wake or a requeue there; or an interrupt for
/// any thread of its process, which tells whether that one still sleeps. As many come
/// as go.
pub fn call(rng: &mut Rng, state: &State, words: &[u32]) -> Option<Event> {
    let (number, who) = sleeper_and_caller(rng, state)?;
    let (from, met) = (state.threads[number].uaddr, state.threads[number].bitset);
    let to = rng.pick(if from == 0 { &[4, 8] } else { &[0, 4092] });
    let caps = (cap(rng), u64::from(cap(rng)));
    let word = |address| word_at(words, who.0, address);
    Some(match rng.below(22) {
        0..=5 => s::wait(who, from, word(from)),
        6..=7 => s::wait_bitset(who, from, word(from), rng.pick(MASKS)),
        8 => s::wait_for(who, from, word(from), rng.below(50)),
        9..=11 => s::wake(who, from, caps.0),
        12..=13 => s::wake_bitset(who, from, caps.0, mask(rng, met)),
        14..=15 => s::requeue(who, from, to, caps.0, caps.1),
        16..=17 => s::cmp_requeue(who, from, to, caps, word(from)),
        18..=20 => s::wake_op(who, from, to, caps, events::operation(rng, word(to))),
        _ => s::interrupt((who.0, rng.below(8) as u8)),
    })
}

/// A WAKE_OP with one word for both and with both caps above 0, at the word of a
/// sleeper.
pub fn one_word(rng: &mut Rng, state: &State, words: &[u32]) -> Option<Event> {
    let (number, who) = sleeper_and_caller(rng, state)?;
    let address = state.threads[number].uaddr;
    let caps = (1 + rng.below(2) as u32, 1 + rng.below(3));
    let operation = events::operation(rng, word_at(words, who.0, address));
    Some(s::wake_op(who, address, address, caps, operation))
}

/// Whose priority is set: a sleeper, so that the order at its word changes, or any
/// thread.
pub fn target(rng: &mut Rng, state: &State) -> Who {
    let drawn = if rng.percent(50) { sleeper(rng, state) } else { None };
    match drawn {
        Some(number) => {
            ((number / THREADS_PER_PROCESS) as u8, (number % THREADS_PER_PROCESS) as u8)
        }
        None => (events::process(rng), events::index(rng)),
    }
}
