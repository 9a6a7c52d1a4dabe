//! Scripts of cut logs: the logs that a replay is tried on, in pieces of many
//! sorts, and reader states handed in, good and bad.

pub mod states;

use std::io::{self, Write};

use super::logs;
use crate::cuts::Script;
use crate::log::LONGEST;
use crate::pieces::Reader;
use crate::rng::Rng;

pub fn write(rng: &mut Rng, out: &mut impl Write) -> io::Result<()> {
    let mut script = Script { out };
    for log in &logs::edges() {
        add(log, rng, &mut script)?;
    }
    states::add(rng, &mut script)
}

/// Adds one log, cut in two at every byte, into single bytes and at random.
pub fn add(log: &[u8], rng: &mut Rng, script: &mut Script<impl Write>) -> io::Result<()> {
    script.log(log)?;
    let mut maker = Maker { rng, script, log };
    for cut in 0..=log.len() {
        maker.two_pieces(cut)?;
    }
    maker.single_bytes()?;
    let length = log.len() as u64;
    for longest in [3, 40, 1 + length] {
        maker.random_pieces(longest.max(1 + length / 200))?;
    }
    for _ in 0..4 {
        maker.go_on_from_middle()?;
    }
    Ok(())
}

/// Makes the commands for one log.
struct Maker<'a, 'b, W: Write> {
    rng: &'a mut Rng,
    script: &'a mut Script<'b, W>,
    log: &'a [u8],
}

impl<W: Write> Maker<'_, '_, W> {
    fn two_pieces(&mut self, cut: usize) -> io::Result<()> {
        self.script.start()?;
        self.sometimes_empty(1, 0)?;
        self.script.piece(0, cut)?;
        self.sometimes_empty(3, cut)?;
        self.script.piece(cut, self.log.len())?;
        self.sometimes_empty(1, cut)?;
        self.script.over()?;
        if self.rng.percent(2) {
            self.afterwards()?;
        }
        Ok(())
    }

    fn sometimes_empty(&mut self, chance: u64, place: usize) -> io::Result<()> {
        if self.rng.percent(chance) {
            self.script.piece(place, place)?;
        }
        Ok(())
    }

    /// Whatever comes after the end gets the same answer.
    fn afterwards(&mut self) -> io::Result<()> {
        for _ in 0..1 + self.rng.below(3) {
            match self.rng.below(4) {
                0 => self.script.over()?,
                1 => self.script.piece(0, 0)?,
                2 => self.script.piece(0, self.log.len().min(LONGEST))?,
                _ => self.script.piece(0, self.log.len().min(1))?,
            }
        }
        Ok(())
    }

    fn single_bytes(&mut self) -> io::Result<()> {
        self.script.start()?;
        for place in 0..self.log.len() {
            self.script.piece(place, place + 1)?;
        }
        self.script.over()?;
        self.afterwards()
    }

    /// Pieces of 0 up to `longest` bytes.
    fn random_pieces(&mut self, longest: u64) -> io::Result<()> {
        self.script.start()?;
        self.random_pieces_from(0, longest)?;
        self.script.over()?;
        self.afterwards()
    }

    fn random_pieces_from(&mut self, from: usize, longest: u64) -> io::Result<()> {
        let mut place = from;
        while place < self.log.len() {
            let next = place + self.rng.below(longest + 1) as usize;
            let next = next.min(self.log.len());
            self.script.piece(place, next)?;
            place = next;
        }
        self.sometimes_empty(50, place)
    }

    /// Hands in the state that a first piece leaves and goes on from there.
    fn go_on_from_middle(&mut self) -> io::Result<()> {
        let cut = self.rng.below(self.log.len() as u64 + 1) as usize;
        let mut reader = Reader::start();
        reader.piece(&self.log[..cut], |_| {});
        self.script.state(&reader)?;
        self.random_pieces_from(cut, 1 + self.log.len() as u64 / 3)?;
        self.script.over()
    }
}
