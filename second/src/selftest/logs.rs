//! The log: refusals in order, round trips, damages.

use super::{replayed, Checks};
use crate::generate::{events, logs};
use crate::log::{self, Cursor, Read};
use crate::model::{Call, Event, State, WORDS};
use crate::rng::Rng;
use crate::shorthand as s;

pub fn run(checks: &mut Checks) {
    reading(checks);
    writing(checks);
    round_trips(checks);
    damages(checks);
}

fn read(bytes: &[u8]) -> (Read, usize) {
    let mut cursor = Cursor { bytes, place: 0 };
    (cursor.read(), cursor.place)
}

pub fn flagged(flag: u8) -> Event {
    Event::Call(Call { flag, ..Call::default() })
}

pub fn record(event: &Event) -> Vec<u8> {
    log::encode(event).map_or(Vec::new(), |(bytes, length)| bytes[..length].to_vec())
}

fn reading(checks: &mut Checks) {
    checks.equal("no bytes", read(&[]), (Read::End, 0));
    for kind in (0..=255).filter(|kind| !(1..=5).contains(kind)) {
        checks.equal("bad kind", read(&[kind]), (Read::Refused(-71), 0));
    }
    let set = s::set_priority((7, 8), 9);
    let events = [flagged(1), s::store(1, 2, 3), s::clock(4), s::interrupt((5, 6)), set];
    for (event, length) in events.into_iter().zip([32, 10, 9, 3, 4]) {
        let bytes = record(&event);
        checks.equal("length", bytes.len(), length);
        checks.equal("read", read(&bytes), (Read::Event(event), length));
        for cut in 1..length {
            checks.equal("cut", read(&bytes[..cut]), (Read::Refused(-61), 0));
        }
    }
    let bad = record(&flagged(2));
    checks.equal("bad flag", read(&bad), (Read::Refused(-71), 0));
    checks.equal("cut comes first", read(&bad[..31]), (Read::Refused(-61), 0));
    let mut beyond = Cursor { bytes: &[1], place: 2 };
    checks.equal("beyond the end", beyond.read(), Read::End);
}

fn writing(checks: &mut Checks) {
    for (event, length) in [
        (flagged(0), 32),
        (s::store(9, 9, 9), 10),
        (s::clock(9), 9),
        (s::interrupt((9, 9)), 3),
        (s::set_priority((9, 9), 99), 4),
    ] {
        let mut room = vec![7; length + 2];
        checks.equal("room", log::write(&event, &mut room), length as i32);
        checks.equal("nothing past it", &room[length..], &[7, 7]);
        checks.equal("bytes", &room[..length], record(&event).as_slice());
        for short in 0..length {
            let mut room = vec![7; short];
            checks.equal("no room", log::write(&event, &mut room), -28);
            checks.equal("nothing written", room, vec![7; short]);
        }
    }
    for event in [flagged(2), flagged(255), s::query(0)] {
        for length in [0, 31, 40] {
            let mut room = vec![7; length];
            checks.equal("unreadable", log::write(&event, &mut room), -71);
            checks.equal("nothing written", room, vec![7; length]);
        }
    }
}

/// Reading gives the event back, and writing what was read the same bytes.
fn round_trips(checks: &mut Checks) {
    let mut rng = Rng::new(5);
    let words = vec![0; WORDS];
    for _ in 0..2000 {
        let event = events::next(&mut rng, &State::fresh(), &words);
        let mut room = [0; 32];
        let length = log::write(&event, &mut room);
        if length > 0 {
            checks.equal("written, read", read(&room[..length as usize]).0, Read::Event(event));
        }
    }
    let bytes = logs::whole(&mut rng, 500);
    let mut cursor = Cursor { bytes: &bytes, place: 0 };
    let mut copy = Vec::new();
    let mut kinds = [0; 6];
    while let Read::Event(event) = cursor.read() {
        let record = record(&event);
        kinds[record[0] as usize] += 1;
        copy.extend(record);
    }
    checks.holds("read, written", copy == bytes);
    for (kind, times) in kinds.into_iter().enumerate().skip(1) {
        checks.holds(&format!("kind {kind} is frequent, {times}"), times >= 10);
    }
}

/// A damaged log prints one line for each good record and then its refusal.
fn damages(checks: &mut Checks) {
    let mut ends = [0; 3];
    for seed in 0..300 {
        let bytes = logs::damaged(&mut Rng::new(seed), 30);
        let mut cursor = Cursor { bytes: &bytes, place: 0 };
        let mut lines = 0;
        let last = loop {
            match cursor.read() {
                Read::Event(_) => lines += 1,
                last => break last,
            }
        };
        let text = replayed(&bytes);
        let refusal = match last {
            Read::Refused(number) => number,
            _ => 0,
        };
        ends[[0, -61, -71].iter().position(|&end| end == refusal).unwrap_or(0)] += 1;
        if refusal != 0 {
            lines += 1;
            checks.holds("refusal last", text.ends_with(&format!("{refusal}\n")));
        }
        checks.equal("lines", text.lines().count(), lines);
    }
    checks.holds("damages of each sort", ends.iter().all(|&times| times >= 20));
}
