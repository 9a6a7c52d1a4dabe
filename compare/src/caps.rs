//! How the caps of wakes and requeues were used up, told from the tables before and
//! after a call: so that a run knows which ends it has tried.

use second::bytes::u32_at;
use second::layout::{COUNT, LIST, UADDR, WAITING};
use second::model::{
    Call, CMP_REQUEUE, PRIVATE_BIT, REQUEUE, WAIT, WAIT_BITSET, WAKE, WAKE_BITSET,
};

use crate::operations::asleep_at;
use crate::tally::Kind;

/// The most ends that a command has.
pub const ENDS: usize = 5;

/// The ends that a command can come to, each with its place.
pub fn ends(kind: Kind) -> &'static [&'static str] {
    match kind {
        "WAKE" | "WAKE_BITSET" => &[
            "cap reached, some left at the word",
            "cap reached, nobody left at the word",
            "cap not reached, some released",
            "cap above 0, nobody released from a list with sleepers",
            "cap 0 where threads sleep",
        ],
        "REQUEUE" | "CMP_REQUEUE" => {
            &["both caps reached", "only the first cap reached", "no cap reached, some released"]
        }
        "WAKE_OP" => &["both caps release at one word", "both caps release, at two words"],
        _ => &[],
    }
}

/// Whom a call took off their places.
#[derive(Default)]
struct Taken {
    /// Released at the first address, and at the second if it is another.
    first: u32,
    second: u32,
    moved: u32,
}

impl Taken {
    fn by(call: &Call, before: &[u8], after: &[u8]) -> Taken {
        let mut taken = Taken::default();
        for place in 0..before[COUNT] {
            let number = before[LIST + place as usize] as usize;
            let [was, is] = [before, after].map(|tables| u32_at(tables, UADDR + 4 * number));
            let released = after[WAITING + number] == 0;
            match released {
                true if was == call.uaddr => taken.first += 1,
                true => taken.second += 1,
                false if was != is => taken.moved += 1,
                false => {}
            }
        }
        taken
    }
}

/// How a call that was answered with a count used up its caps, by the place among
/// the ends of its command.
pub fn end(call: &Call, before: &[u8], after: &[u8]) -> Option<usize> {
    let command = call.op & !PRIVATE_BIT;
    if matches!(command, WAIT | WAIT_BITSET) {
        return None;
    }
    let taken = Taken::by(call, before, after);
    match command {
        WAKE | WAKE_BITSET => end_of_wake(call, before, taken),
        REQUEUE | CMP_REQUEUE => end_of_requeue(call, taken),
        // At one word those beyond the first cap were taken by the second.
        _ if call.uaddr == call.uaddr2 => (call.val > 0 && taken.first > call.val).then_some(0),
        _ => (taken.first > 0 && taken.second > 0).then_some(1),
    }
}

fn end_of_wake(call: &Call, before: &[u8], taken: Taken) -> Option<usize> {
    let asleep = asleep_at(before, call.process, call.uaddr);
    match (taken.first == call.val, taken.first) {
        (true, 0) => (asleep > 0).then_some(4),
        (true, first) => Some((first == asleep) as usize),
        (false, 0) => (before[COUNT] > 0).then_some(3),
        (false, _) => Some(2),
    }
}

/// Of requeues with both caps above 0 that find somebody.
fn end_of_requeue(call: &Call, taken: Taken) -> Option<usize> {
    let second_cap = call.timeout as u32;
    if call.val == 0 || second_cap == 0 || taken.first + taken.moved == 0 {
        return None;
    }
    let reached = [taken.first == call.val, taken.moved == second_cap];
    Some(2 - reached.into_iter().filter(|&reached| reached).count())
}
