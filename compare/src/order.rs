//! In which order wakes and requeues took sleepers, by request (vii) of document 02,
//! told by pairs from the tables before and after a call: that nobody was left, or
//! moved, who goes before one that was taken, or released, and what a run has tried
//! of it.

use second::bytes::u32_at;
use second::layout::{BITSET, COUNT, LIST, PRIORITY, UADDR, WAITING};
use second::model::{
    Call, CMP_REQUEUE, PRIVATE_BIT, REQUEUE, THREADS_PER_PROCESS, WAKE, WAKE_BITSET, WAKE_OP,
};

use crate::tally::Kind;

/// The most that a command can show of its order.
pub const SHOWS: usize = 4;

/// For each show of the command, whether it was seen.
pub type Shows = [bool; SHOWS];

const OVERTAKES: &str = "takes a later one of higher priority before an earlier one";
const TIE: &str = "takes an earlier one before a later one of equal priority";

/// What a command can show, each with its place.
pub fn shows(kind: Kind) -> &'static [&'static str] {
    match kind {
        "WAKE" | "WAKE_BITSET" => &[OVERTAKES, TIE],
        "REQUEUE" | "CMP_REQUEUE" => {
            &[OVERTAKES, TIE, "moves in another order than the list's", "moves two equals"]
        }
        "WAKE_OP" => {
            &[OVERTAKES, TIE, "overtakes at the second word", "overtakes at one word for both"]
        }
        _ => &[],
    }
}

#[derive(Clone, Copy, PartialEq, Eq)]
enum Fate {
    Released,
    Moved,
    Left,
}
use Fate::*;

/// A sleeper whom a call could take: where it stood on the list, and its place after
/// the call if it is still listed.
#[derive(Clone, Copy)]
struct Sleeper {
    place: usize,
    place_after: usize,
    priority: u8,
    fate: Fate,
}

impl Sleeper {
    /// Higher, or as high and earlier on the list.
    fn goes_before(&self, other: &Sleeper) -> bool {
        self.priority > other.priority
            || (self.priority == other.priority && self.place < other.place)
    }

    fn taken(&self) -> bool {
        self.fate != Left
    }
}

fn listed(tables: &[u8]) -> &[u8] {
    &tables[LIST..LIST + tables[COUNT] as usize]
}

/// Those at a word of the call's process whom a mask matches, in list order.
fn at(call: &Call, address: u32, mask: u32, before: &[u8], after: &[u8]) -> Vec<Sleeper> {
    let mut found = Vec::new();
    for (place, &entry) in listed(before).iter().enumerate() {
        let number = entry as usize;
        let own = number / THREADS_PER_PROCESS == call.process as usize;
        let [was, is] = [before, after].map(|tables| u32_at(tables, UADDR + 4 * number));
        if !own || was != address || u32_at(before, BITSET + 4 * number) & mask == 0 {
            continue;
        }
        let fate = match after[WAITING + number] {
            0 => Released,
            _ if is != was => Moved,
            _ => Left,
        };
        let place_after = listed(after).iter().position(|&other| other == entry).unwrap_or(0);
        found.push(Sleeper { place, place_after, priority: before[PRIORITY + number], fate });
    }
    found
}

/// The words that a call takes sleepers from, each with those whom it could take.
fn words(call: &Call, before: &[u8], after: &[u8]) -> Vec<Vec<Sleeper>> {
    let at = |address, mask| at(call, address, mask, before, after);
    match call.op & !PRIVATE_BIT {
        WAKE | REQUEUE | CMP_REQUEUE => vec![at(call.uaddr, u32::MAX)],
        WAKE_BITSET => vec![at(call.uaddr, call.val3)],
        WAKE_OP if call.uaddr == call.uaddr2 => vec![at(call.uaddr, u32::MAX)],
        WAKE_OP => vec![at(call.uaddr, u32::MAX), at(call.uaddr2, u32::MAX)],
        _ => Vec::new(),
    }
}

/// Whether two sleepers, in either order, have these properties.
fn any_pair(word: &[Sleeper], test: impl Fn(&Sleeper, &Sleeper) -> bool) -> bool {
    word.iter().any(|one| word.iter().any(|other| test(one, other)))
}

/// Whether a call that was answered with a count kept to the order.
pub fn is_kept(call: &Call, before: &[u8], after: &[u8]) -> bool {
    words(call, before, after).iter().all(|word| {
        // `one` fared better than `other`, who goes before it.
        !any_pair(word, |one, other| match (one.fate, other.fate) {
            (Released | Moved, Left) | (Released, Moved) => other.goes_before(one),
            (Moved, Moved) => one.place_after < other.place_after && other.goes_before(one),
            _ => false,
        })
    })
}

fn overtakes(word: &[Sleeper]) -> bool {
    any_pair(word, |one, other| one.taken() && !other.taken() && one.place > other.place)
}

fn ties(word: &[Sleeper]) -> bool {
    any_pair(word, |one, other| {
        one.taken() && !other.taken() && one.priority == other.priority && one.place < other.place
    })
}

/// What a call that was answered with a count shows, by the places of its command's
/// shows.
pub fn shown(call: &Call, before: &[u8], after: &[u8]) -> Shows {
    let words = words(call, before, after);
    let both_moved = |one: &Sleeper, other: &Sleeper| one.fate == Moved && other.fate == Moved;
    let mut shows = [false; SHOWS];
    if let [first, ..] = &words[..] {
        shows[0] = overtakes(first);
        shows[1] = ties(first);
        shows[2] = any_pair(first, |one, other| {
            both_moved(one, other) && one.place < other.place && one.place_after > other.place_after
        });
        shows[3] = any_pair(first, |one, other| {
            both_moved(one, other) && one.place < other.place && one.priority == other.priority
        });
    }
    if call.op & !PRIVATE_BIT == WAKE_OP {
        shows[2] = words.get(1).is_some_and(|second| overtakes(second));
        shows[3] = words.len() == 1 && shows[0];
    }
    shows
}
