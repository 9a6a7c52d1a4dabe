//! Reader states handed in: those that pieces leave, and every way to be none
//! of them.

use std::io::{self, Write};

use crate::cuts::Script;
use crate::generate::logs;
use crate::log::{self, LONGEST};
use crate::model::{Call, Event};
use crate::pieces::{Ended, Reader, HELD};
use crate::rng::Rng;
use crate::shorthand as s;

pub fn add(rng: &mut Rng, script: &mut Script<impl Write>) -> io::Result<()> {
    for record in records() {
        // What follows a held record completes it, and events come behind.
        let log = [record.clone(), logs::story()].concat();
        script.log(&log)?;
        let mut maker = Maker { rng, script, log: &log };
        maker.counts()?;
        maker.behind(record.len())?;
        maker.kinds(&record)?;
        maker.ended(&record)?;
        maker.random()?;
    }
    Ok(())
}

/// A record of each kind without a byte that is 0, and a call with a bad flag.
fn records() -> Vec<Vec<u8>> {
    let call = |flag| {
        Event::Call(Call {
            process: 1,
            index: 2,
            op: 0x0403_0201,
            uaddr: 0x1413_1211,
            val: 0x2423_2221,
            flag,
            timeout: 0x3837_3635_3433_3231,
            uaddr2: 0x4443_4241,
            val3: 0x5453_5251,
        })
    };
    let store = s::store(3, 0x0403_0201, 0x1413_1211);
    let clock = s::clock(0x1817_1615_1413_1211);
    let set_priority = s::set_priority((6, 7), 31);
    let events = [call(1), call(2), store, clock, s::interrupt((4, 5)), set_priority];
    let record = |event| log::encode(event).map(|(bytes, length)| bytes[..length].to_vec());
    events.iter().filter_map(record).collect()
}

/// Makes the commands for states around one record, the first of the log.
struct Maker<'a, 'b, W: Write> {
    rng: &'a mut Rng,
    script: &'a mut Script<'b, W>,
    log: &'a [u8],
}

impl<W: Write> Maker<'_, '_, W> {
    /// The state and then, in any order, a piece that goes on behind the held
    /// bytes, an empty piece, and the word "over".
    fn try_state(&mut self, reader: Reader) -> io::Result<()> {
        self.script.state(&reader)?;
        let mut left = vec![0, 1, 2];
        while !left.is_empty() {
            let place = (reader.count as usize).min(LONGEST);
            match left.remove(self.rng.below(left.len() as u64) as usize) {
                0 => self.script.piece(place, self.log.len())?,
                1 => self.script.piece(place, place)?,
                _ => self.script.over()?,
            }
        }
        Ok(())
    }

    /// The state that holds the first `count` bytes of the log.
    fn holding(&self, count: usize) -> Reader {
        let mut reader = Reader { count: count as u8, ..Reader::start() };
        let length = count.min(HELD);
        reader.held[..length].copy_from_slice(&self.log[..length]);
        reader
    }

    /// Every count: from the record's length on no pieces leave it. The same
    /// count over zeros, and over bytes that fill the room.
    fn counts(&mut self) -> io::Result<()> {
        for count in 0..=255 {
            self.try_state(self.holding(count))?;
            self.try_state(Reader { count: count as u8, ..Reader::start() })?;
            self.try_state(Reader { count: count as u8, ..self.holding(HELD) })?;
        }
        Ok(())
    }

    /// A byte that isn't 0 at each place behind the held ones.
    fn behind(&mut self, length: usize) -> io::Result<()> {
        for count in 0..length {
            for place in count..HELD {
                let mut reader = self.holding(count);
                reader.held[place] = self.rng.pick(&[1, 2, 4, 128, 255]);
                self.try_state(reader)?;
            }
        }
        Ok(())
    }

    /// Every first byte with a few counts.
    fn kinds(&mut self, record: &[u8]) -> io::Result<()> {
        for kind in 0..=255 {
            for count in [1, 2, 3, record.len() - 1, HELD] {
                let mut reader = self.holding(count);
                reader.held[0] = kind;
                self.try_state(reader)?;
            }
        }
        Ok(())
    }

    /// Ended states: as pieces leave them, with a count, with held bytes, with
    /// both.
    fn ended(&mut self, record: &[u8]) -> io::Result<()> {
        for ended in [Ended::Clean, Ended::Unreadable, Ended::Cut].map(Some) {
            let empty = Reader { ended, ..Reader::start() };
            for count in [0, 1, 2, 3, 8, 9, 10, 30, 31, 32, 128, 255] {
                self.try_state(Reader { count, ..empty })?;
            }
            for place in 0..HELD {
                let mut reader = empty;
                reader.held[place] = self.rng.pick(&[1, 4, 255]);
                self.try_state(reader)?;
            }
            for count in 1..=HELD.min(record.len()) {
                self.try_state(Reader { ended, ..self.holding(count) })?;
                self.try_state(Reader { ended, count: 0, ..self.holding(count) })?;
            }
        }
        Ok(())
    }

    /// Any count with bytes of few values, zeros behind for the most part.
    fn random(&mut self) -> io::Result<()> {
        for _ in 0..2000 {
            let count = self.rng.below(34) as usize;
            let mut reader = Reader { count: count as u8, ..Reader::start() };
            let used = if self.rng.percent(70) { count.min(HELD) } else { HELD };
            for byte in &mut reader.held[..used] {
                *byte = self.rng.below(7) as u8;
            }
            if self.rng.percent(10) {
                reader.ended =
                    self.rng.pick(&[Ended::Clean, Ended::Unreadable, Ended::Cut].map(Some));
            }
            self.try_state(reader)?;
        }
        Ok(())
    }
}
