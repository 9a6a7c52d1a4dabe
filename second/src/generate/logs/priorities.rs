//! Logs with priorities, of kind 5: that record by itself and among others, whole,
//! cut and with a bad kind beside it, and its arguments at their edges; and logs
//! whose answers tell who was taken.

mod order;

use super::{damaged, filler, flagged, of, whole};
use crate::generate::events::{self, EDGE_PRIORITIES};
use crate::log::LONGEST;
use crate::model::Event;
use crate::replay::PIECE;
use crate::rng::Rng;
use crate::shorthand as s;

pub fn edges() -> Vec<Vec<u8>> {
    let mut logs = vec![arguments(), kept()];
    cuts(&mut logs);
    bad_kinds(&mut logs);
    among_others(&mut logs);
    // A record across the end of a replay's first piece.
    let across = of(&[s::set_priority((0, 1), 31), s::store(0, 4, 7), s::interrupt((0, 1))]);
    logs.push([filler(events::next, PIECE - 2), across].concat());
    logs.extend((20..26).map(|seed| whole(&mut Rng::new(seed), 200)));
    logs.extend((500..650).map(|seed| damaged(&mut Rng::new(seed), 12)));
    logs.extend(order::edges());
    logs
}

/// Nothing of these is judged before the event is applied.
fn arguments() -> Vec<u8> {
    let mut events = Vec::new();
    for who in [(0, 0), (0, 7), (7, 7), (8, 0), (0, 8), (255, 255)] {
        events.extend(EDGE_PRIORITIES.iter().map(|&priority| s::set_priority(who, priority)));
    }
    of(&events)
}

/// Set before a sleep and in it, by each way that a sleep can go.
fn kept() -> Vec<u8> {
    of(&[
        s::set_priority((0, 1), 31),
        s::wait((0, 1), 8, 0),
        s::wait_for((0, 2), 8, 0, 10),
        s::wait((0, 3), 8, 0),
        s::set_priority((0, 2), 30),
        s::set_priority((0, 3), 32),
        s::requeue((0, 0), 8, 16, 1, 1),
        s::clock(10),
        s::interrupt((0, 3)),
        s::set_priority((0, 1), 0),
        s::wake((0, 0), 8, 1),
    ])
}

/// Cut at every byte, first and behind other records; the last length is whole.
fn cuts(logs: &mut Vec<Vec<u8>>) {
    let record = of(&[s::set_priority((0, 1), 9)]);
    for before in [of(&[]), of(&[s::store(0, 8, 5)]), record.clone(), flagged(1)] {
        for length in 1..=record.len() {
            logs.push([&before[..], &record[..length]].concat());
        }
    }
    // A body that looks like kinds, and one record after another of the same byte.
    logs.push(vec![5; LONGEST]);
    logs.push(vec![5; LONGEST - 1]);
    logs.push(vec![5, 1, 2, 3, 4, 5, 6]);
}

/// The kinds next to those that there are, and flags above 1, before kind 5 and
/// behind it.
fn bad_kinds(logs: &mut Vec<Vec<u8>>) {
    let record = of(&[s::set_priority((0, 1), 9)]);
    for bad in [vec![0], vec![6], vec![255], flagged(2)] {
        logs.push([&record[..], &bad].concat());
        logs.push([&bad[..], &record].concat());
        logs.push([&record[..], &bad, &record].concat());
    }
    logs.push([&record[..], &flagged(2)[..31]].concat());
}

/// Before, between and behind records of each other kind, the last of them cut.
fn among_others(logs: &mut Vec<Vec<u8>>) {
    let set = s::set_priority((1, 2), 3);
    let wait = s::wait_for((0, 1), 8, 0, 7);
    let others: [Event; 4] = [wait, s::store(0, 8, 5), s::clock(9), s::interrupt((0, 1))];
    for other in others {
        logs.push(of(&[set, other, set]));
        logs.push(of(&[other, set, other]));
        let mut cut = of(&[set, other]);
        cut.pop();
        logs.push(cut);
    }
}
