//! Request (vii) of document 02 once more, by pairs: from the tables before and
//! after an event alone, and without working out whom it should have taken. Nobody
//! is left behind who goes before one that was taken, nobody moves who goes before a
//! released one, and of two that moved the one that goes first stands first.

use std::collections::BTreeMap;

use super::{declared, Checks, Display};
use crate::generate::{aimed, events, tables};
use crate::model::{
    Answer, Call, Event, State, CMP_REQUEUE, PRIVATE_BIT, REQUEUE, THREADS, WAKE, WAKE_BITSET,
    WAKE_OP,
};
use crate::rng::Rng;

/// A judgment: none, or what is wrong.
type Wrong = Option<&'static str>;

pub fn run(checks: &mut Checks) {
    let mut rng = Rng::new(0x7009);
    let mut seen = BTreeMap::new();
    for _ in 0..900 {
        let mut display = Display { state: tables::sound(&mut rng), ..Display::fresh() };
        for _ in 0..60 {
            let event = next(&mut rng, &display);
            let before = display.clone();
            let answer = display.answer(event);
            if let (Event::Call(call), Answer::Number(number @ 0..)) = (event, answer) {
                let taking = Taking::of(&before, &display.state, &call);
                checks.equal(&format!("{call:?}"), taking.wrong(number as usize), None);
                for name in taking.seen() {
                    *seen.entry((call.op & !PRIVATE_BIT, name)).or_insert(0) += 1;
                }
            }
        }
    }
    for (command, name) in due() {
        let times = seen.get(&(command, name)).copied().unwrap_or(0);
        checks.holds(&format!("{command}: {name} is frequent, {times}"), times >= 50);
    }
}

fn next(rng: &mut Rng, display: &Display) -> Event {
    let (state, words) = (&display.state, &display.words);
    let aimed = match rng.below(10) {
        0..=4 => aimed::call(rng, state, words),
        5 => aimed::one_word(rng, state, words),
        _ => None,
    };
    aimed.unwrap_or_else(|| events::next(rng, state, words))
}

const OVERTAKES: &str = "overtakes";
const TIE: &str = "an equal that came later is left";
const REORDERS: &str = "moves in another order than the list's";
const TIED_MOVE: &str = "moves two equals";

/// What each command has to show often.
fn due() -> Vec<(u32, &'static str)> {
    let mut due = Vec::new();
    for command in [WAKE, WAKE_BITSET, REQUEUE, CMP_REQUEUE, WAKE_OP] {
        due.extend([(command, OVERTAKES), (command, TIE)]);
    }
    for command in [REQUEUE, CMP_REQUEUE] {
        due.extend([(command, REORDERS), (command, TIED_MOVE)]);
    }
    due
}

fn listed(state: &State) -> &[u8] {
    &state.list[..state.count as usize]
}

fn priority(state: &State, thread: u8) -> u8 {
    state.threads[thread as usize].priority
}

/// Who sleeps at a word of a process, in list order.
fn queue(state: &State, process: u8, address: u32) -> Vec<u8> {
    let there = |t: &&u8| **t / 8 == process && state.threads[**t as usize].uaddr == address;
    listed(state).iter().filter(there).copied().collect()
}

/// Whom a wake or requeue may take at its first word, in list order. Others take
/// nobody.
pub fn candidates(state: &State, call: &Call) -> Vec<u8> {
    let mut found = queue(state, call.process, call.uaddr);
    match call.op & !PRIVATE_BIT {
        WAKE | REQUEUE | CMP_REQUEUE | WAKE_OP => {}
        WAKE_BITSET => found.retain(|&t| state.threads[t as usize].bitset & call.val3 != 0),
        _ => found.clear(),
    }
    found
}

/// Whether an event took some of those whom it could take at its first word, and
/// left some.
pub fn leaves_some(before: &State, after: &State, event: &Event) -> bool {
    let Event::Call(call) = event else {
        return false;
    };
    let found = candidates(before, call);
    let stays = |t: &&u8| after.threads[**t as usize] == before.threads[**t as usize];
    let left = found.iter().filter(stays).count();
    left > 0 && left < found.len()
}

/// What a call did to those whom it could take at one word, each in list order.
struct Word {
    caps: (usize, usize),
    released: Vec<u8>,
    moved: Vec<u8>,
    left: Vec<u8>,
}

impl Word {
    fn of(before: &State, after: &State, found: Vec<u8>, caps: (usize, usize)) -> Word {
        let mut word = Word { caps, released: vec![], moved: vec![], left: vec![] };
        for thread in found {
            let [was, is] = [before, after].map(|state| state.threads[thread as usize]);
            match is.waiting {
                false => word.released.push(thread),
                true if is.uaddr != was.uaddr => word.moved.push(thread),
                true => word.left.push(thread),
            }
        }
        word
    }

    fn taken(&self) -> impl Iterator<Item = u8> + '_ {
        self.released.iter().chain(&self.moved).copied()
    }

    /// Each cap is reached, or there was nobody more.
    fn counts_are_right(&self) -> bool {
        let found = self.taken().count() + self.left.len();
        self.released.len() == self.caps.0.min(found)
            && self.moved.len() == self.caps.1.min(found - self.released.len())
    }
}

/// All that a wake or requeue did.
struct Taking<'a> {
    before: &'a State,
    after: &'a State,
    words: Vec<Word>,
    /// REQUEUE counts the released alone.
    counts_moved: bool,
}

impl Taking<'_> {
    fn of<'a>(before: &'a Display, after: &'a State, call: &Call) -> Taking<'a> {
        let state = &before.state;
        let (first, second) = (call.val as usize, call.timeout as u32 as usize);
        let here = candidates(state, call);
        let command = call.op & !PRIVATE_BIT;
        let at = |found, caps| Word::of(state, after, found, caps);
        let words = match command {
            REQUEUE | CMP_REQUEUE => vec![at(here, (first, second))],
            WAKE_OP => {
                let place = 1024 * call.process as usize + call.uaddr2 as usize / 4;
                let truth = declared::compares_true(before.words[place], call.val3);
                let second = if truth { second } else { 0 };
                if call.uaddr == call.uaddr2 {
                    vec![at(here, (first + second, 0))]
                } else {
                    let there = queue(state, call.process, call.uaddr2);
                    vec![at(here, (first, 0)), at(there, (second, 0))]
                }
            }
            _ => vec![at(here, (first, 0))],
        };
        Taking { before: state, after, words, counts_moved: command != REQUEUE }
    }

    fn place(&self, thread: u8) -> usize {
        listed(self.before).iter().position(|&entry| entry == thread).unwrap_or(THREADS)
    }

    /// Higher, or as high and earlier on the list.
    fn goes_before(&self, one: u8, other: u8) -> bool {
        let [high, low] = [one, other].map(|thread| priority(self.before, thread));
        high > low || (high == low && self.place(one) < self.place(other))
    }

    fn all_before(&self, ones: &[u8], others: &[u8]) -> bool {
        ones.iter().all(|&one| others.iter().all(|&other| self.goes_before(one, other)))
    }

    fn wrong(&self, number: usize) -> Wrong {
        let counted = |word: &Word| match self.counts_moved {
            true => word.taken().count(),
            false => word.released.len(),
        };
        if self.words.iter().map(counted).sum::<usize>() != number {
            return Some("the number is not that of the taken");
        }
        self.words.iter().find_map(|word| self.wrong_at(word)).or_else(|| self.wrong_elsewhere())
    }

    fn wrong_at(&self, word: &Word) -> Wrong {
        if !word.counts_are_right() {
            return Some("a cap");
        }
        if !self.all_before(&word.released, &word.left) || !self.all_before(&word.moved, &word.left)
        {
            return Some("one is left who goes before a taken one");
        }
        if !self.all_before(&word.released, &word.moved) {
            return Some("one moved who goes before a released one");
        }
        let list = listed(self.after);
        let tail = &list[list.len() - word.moved.len()..];
        let ordered = tail.windows(2).all(|two| self.goes_before(two[0], two[1]));
        if !ordered || !tail.iter().all(|thread| word.moved.contains(thread)) {
            return Some("the order of the moved");
        }
        None
    }

    /// Those who weren't taken keep their records and their order.
    fn wrong_elsewhere(&self) -> Wrong {
        let taken: Vec<u8> = self.words.iter().flat_map(Word::taken).collect();
        let untouched = |number: &usize| !taken.contains(&(*number as u8));
        let same = |number| self.before.threads[number] == self.after.threads[number];
        if !(0..THREADS).filter(untouched).all(same) {
            return Some("another record");
        }
        let [was, is] = [self.before, self.after].map(|state| {
            let mut others = listed(state).to_vec();
            others.retain(|thread| !taken.contains(thread));
            others
        });
        (was != is).then_some("the others' order")
    }

    /// What this shows of the order, for a count.
    fn seen(&self) -> Vec<&'static str> {
        let mut seen = Vec::new();
        let both = |word: &Word, test: &dyn Fn(u8, u8) -> bool| {
            word.taken().any(|one| word.left.iter().any(|&other| test(one, other)))
        };
        let equal = |one, other| priority(self.before, one) == priority(self.before, other);
        for word in &self.words {
            if both(word, &|one, other| self.place(one) > self.place(other)) {
                seen.push(OVERTAKES);
            }
            if both(word, &equal) {
                seen.push(TIE);
            }
            if !listed(self.after).ends_with(&word.moved) {
                seen.push(REORDERS);
            }
            if word.moved.windows(2).any(|two| equal(two[0], two[1])) {
                seen.push(TIED_MOVE);
            }
        }
        seen
    }
}
