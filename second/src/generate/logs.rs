//! Logs, whole and damaged.

mod priorities;

use std::io::{self, Write};

use super::events;
use crate::log::{self, LONGEST};
use crate::model::{self, Event, State, WORDS};
use crate::replay::PIECE;
use crate::rng::Rng;
use crate::shorthand as s;

/// How the next event of a log is drawn.
type Draw = fn(&mut Rng, &State, &[u32]) -> Event;

/// A whole log of `count` events.
pub fn whole(rng: &mut Rng, count: u64) -> Vec<u8> {
    whole_of(events::next, rng, count)
}

fn whole_of(draw: Draw, rng: &mut Rng, count: u64) -> Vec<u8> {
    let mut history = History::fresh(draw);
    let mut bytes = Vec::new();
    for _ in 0..count {
        history.log_next(rng, &mut bytes, |_, _, _| true);
    }
    bytes
}

/// Writes a whole log as it is made: the records that begin before byte
/// `length`.
pub fn write_long(rng: &mut Rng, length: u64, out: &mut impl Write) -> io::Result<()> {
    let mut history = History::fresh(events::next);
    let mut record = Vec::new();
    let mut written = 0;
    while written < length {
        record.clear();
        history.log_next(rng, &mut record, keeps_busy);
        out.write_all(&record)?;
        written += record.len() as u64;
    }
    Ok(())
}

/// What a long log would otherwise run into: a clock at its end, where no timed
/// wait sleeps any more, and sleepers that call, since most threads sleep.
fn keeps_busy(rng: &mut Rng, state: &State, event: &Event) -> bool {
    match *event {
        Event::Clock { time } => time <= state.clock.saturating_add(1000),
        Event::Call(call) => rng.percent(10) || !events::sleeps(state, (call.process, call.index)),
        _ => true,
    }
}

/// The tables and words that a log in the making has come to.
struct History {
    draw: Draw,
    state: State,
    words: Vec<u32>,
}

impl History {
    fn fresh(draw: Draw) -> History {
        History { draw, state: State::fresh(), words: vec![0; WORDS] }
    }

    /// Draws the next event and adds its record. A query and a flag above 1
    /// have no record; these, and what isn't wanted on these tables, are drawn
    /// again.
    fn log_next(
        &mut self,
        rng: &mut Rng,
        bytes: &mut Vec<u8>,
        wanted: impl Fn(&mut Rng, &State, &Event) -> bool,
    ) {
        loop {
            let event = (self.draw)(rng, &self.state, &self.words);
            if wanted(rng, &self.state, &event) && append(&event, bytes) {
                model::step_sound(&mut self.state, &mut self.words, &event);
                return;
            }
        }
    }
}

fn append(event: &Event, bytes: &mut Vec<u8>) -> bool {
    let mut room = [0; LONGEST];
    let length = log::write(event, &mut room);
    if length > 0 {
        bytes.extend(&room[..length as usize]);
    }
    length > 0
}

/// A log of fewer than `limit` events with one damage: cut somewhere, a bad kind
/// or a bad flag somewhere, any byte changed, or junk at its end.
pub fn damaged(rng: &mut Rng, limit: u64) -> Vec<u8> {
    damaged_of(events::next, rng, limit)
}

fn damaged_of(draw: Draw, rng: &mut Rng, limit: u64) -> Vec<u8> {
    let count = rng.below(limit);
    let mut bytes = whole_of(draw, rng, count);
    match rng.below(6) {
        0 => {
            let length = rng.below(bytes.len() as u64 + 1) as usize;
            bytes.truncate(length);
        }
        1 => bytes.push(rng.pick(&[0, 6, 7, 81, 128, 254, 255])),
        2 => bytes.extend(cut_record(draw, rng)),
        3 => bytes.extend(bad_flag(rng)),
        4 => {
            bytes.extend(bad_flag(rng));
            bytes.extend(whole_of(draw, rng, 3));
        }
        _ => {
            if !bytes.is_empty() {
                let place = rng.below(bytes.len() as u64) as usize;
                bytes[place] = rng.u64() as u8;
            }
        }
    }
    bytes
}

/// A record that lacks its end; a cut call may carry a bad flag besides.
fn cut_record(draw: Draw, rng: &mut Rng) -> Vec<u8> {
    let mut record = if rng.percent(50) { bad_flag(rng) } else { whole_of(draw, rng, 1) };
    let length = 1 + rng.below(record.len() as u64 - 1) as usize;
    record.truncate(length);
    record
}

/// A whole call record with a flag above 1.
fn bad_flag(rng: &mut Rng) -> Vec<u8> {
    let words = vec![0; WORDS];
    let mut call = events::call(rng, &State::fresh(), &words);
    call.flag = rng.pick(&[2, 3, 128, 255]);
    match log::encode(&Event::Call(call)) {
        Some((record, length)) => record[..length].to_vec(),
        None => Vec::new(),
    }
}

/// A short log to read: a lock handed over, a stale word, a requeue that keeps
/// a deadline, a timeout, an interrupt, refusals, and a stop key that goes before a
/// sleeper who came earlier.
pub fn story() -> Vec<u8> {
    of(&[
        s::store(0, 8, 2),
        s::wait((0, 1), 8, 2),
        s::wait((0, 2), 8, 2),
        s::store(0, 8, 0),
        s::wake((0, 0), 8, 1),
        s::wait((0, 3), 8, 2),
        s::wait((1, 0), 16, 0),
        s::wait_for((1, 1), 16, 0, 100),
        s::cmp_requeue((1, 2), 16, 8, (1, 1), 0),
        s::clock(99),
        s::clock(100),
        s::interrupt((0, 2)),
        s::wake((9, 0), 8, 1),
        s::set_priority((3, 0), 31),
        s::set_priority((3, 0), 32),
        s::wait((3, 1), 24, 0),
        s::wait((3, 0), 24, 0),
        s::wake((3, 2), 24, 1),
        // Who was left: not the stop key.
        s::interrupt((3, 0)),
        s::interrupt((3, 1)),
    ])
}

fn of(events: &[Event]) -> Vec<u8> {
    let mut bytes = Vec::new();
    for event in events {
        append(event, &mut bytes);
    }
    bytes
}

/// The logs that a replay is tried on: the short one to read, those without
/// priorities, then those with.
pub fn edges() -> Vec<Vec<u8>> {
    let mut logs = vec![story()];
    logs.extend(without_priorities());
    logs.extend(priorities::edges());
    logs
}

/// Every refusal at the first record and at a later one, cuts at every byte, logs
/// around the end of a replay's first piece, and random logs, whole and damaged.
pub fn without_priorities() -> Vec<Vec<u8>> {
    let draw = events::next_but_priorities;
    let wait = s::wait_for((0, 1), 8, 5, 7);
    let records = [wait, s::store(0, 8, 5), s::clock(9), s::interrupt((0, 1))];
    let mut logs = vec![Vec::new()];
    logs.push(of(&[s::store(0, 8, 5), s::wait((0, 0), 8, 5), s::wake((0, 1), 8, 1)]));
    for before in [of(&[]), of(&[s::store(0, 8, 5), wait])] {
        for record in records.map(|event| of(&[event])) {
            for length in 1..=record.len() {
                logs.push([&before[..], &record[..length]].concat());
            }
        }
        for kind in [0, 6, 81, 128, 255] {
            logs.push([&before[..], &[kind]].concat());
            logs.push([&before[..], &[kind; LONGEST]].concat());
        }
        for flag in [2, 128, 255] {
            let record = flagged(flag);
            logs.push([&before[..], &record].concat());
            logs.push([&before[..], &record[..31]].concat());
            logs.push([&before[..], &record, &before].concat());
        }
    }
    logs.extend(around_a_piece());
    logs.extend((0..20).map(|seed| whole_of(draw, &mut Rng::new(seed), 200)));
    // Few events, since scripts of cut logs cut all of these at every byte.
    logs.extend((0..500).map(|seed| damaged_of(draw, &mut Rng::new(seed), 12)));
    logs
}

/// A wait with any flag byte.
fn flagged(flag: u8) -> Vec<u8> {
    let mut record = of(&[s::wait_for((0, 1), 8, 5, 7)]);
    record[15] = flag;
    record
}

/// Logs that end where the first piece of a replay does, a byte before it and a
/// byte after it; a call across that place, whole and cut by the end of the
/// log; and a bad kind right behind it.
fn around_a_piece() -> Vec<Vec<u8>> {
    let call = flagged(1);
    let after = of(&[s::store(0, 4, 7), s::wake((0, 2), 8, 1)]);
    let filler = |length| filler(events::next_but_priorities, length);
    vec![
        filler(PIECE - 1),
        filler(PIECE),
        filler(PIECE + 1),
        [&filler(PIECE - 13)[..], &call, &after].concat(),
        [&filler(PIECE - 20)[..], &call[..31]].concat(),
        [&filler(PIECE)[..], &[6], &after].concat(),
    ]
}

/// A whole log of just so many bytes: a random one, and at its end stores of 10
/// bytes and interrupts of 3, which fit any length.
fn filler(draw: Draw, length: usize) -> Vec<u8> {
    let mut rng = Rng::new(length as u64);
    let mut history = History::fresh(draw);
    let mut bytes = Vec::new();
    while length - bytes.len() >= 2 * LONGEST {
        history.log_next(&mut rng, &mut bytes, |_, _, _| true);
    }
    while (length - bytes.len()) % 3 != 0 {
        append(&s::store(0, 8, 5), &mut bytes);
    }
    while bytes.len() < length {
        append(&s::interrupt((0, 1)), &mut bytes);
    }
    bytes
}
