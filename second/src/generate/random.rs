//! Random scripts: events over fresh, sound and broken tables, and over too
//! short or too long a memory, with dumps and word prints now and then. Most
//! stretches mix priorities, some keep all of them equal.

use std::io::{self, Write};

use super::{aimed, events, tables};
use crate::model::WORDS;
use crate::rng::Rng;
use crate::script::{self, Machine, Record, MEMORY};

/// A script in the making. Each record is also applied, so that the next event
/// can look at the tables that the script will have come to.
struct Maker<'a, W: Write> {
    rng: Rng,
    machine: Machine,
    /// Whether the stretch leaves all priorities equal.
    equal: bool,
    script: Vec<u8>,
    out: &'a mut W,
}

impl<W: Write> Maker<'_, W> {
    fn add(&mut self, record: Record) -> io::Result<()> {
        script::write(&record, &mut self.script);
        self.machine.apply(&record, &mut io::sink())?;
        if self.script.len() > 1 << 16 {
            self.out.write_all(&self.script)?;
            self.script.clear();
        }
        Ok(())
    }

    fn event(&mut self) -> io::Result<()> {
        let (state, words) = (&self.machine.state, &self.machine.memory[..WORDS]);
        // Here and not among the events of `next`: logs need no more of these.
        let one_word = self.rng.percent(4);
        let event = one_word.then(|| aimed::one_word(&mut self.rng, state, words)).flatten();
        let next = if self.equal { events::next_that_keeps } else { events::next };
        let event = event.unwrap_or_else(|| next(&mut self.rng, state, words));
        self.add(Record::Event(event))
    }

    /// The priorities of a stretch: of eight, one has all equal, six begin with mixed
    /// ones, and one goes on with those that the tables have.
    fn start_priorities(&mut self) -> io::Result<()> {
        let mut state = self.machine.state.clone();
        let share = self.rng.below(8);
        self.equal = share == 0;
        match share {
            0 => {
                let priority = events::any_priority(&mut self.rng);
                state.threads.iter_mut().for_each(|thread| thread.priority = priority);
            }
            1..=6 => tables::set_priorities(&mut self.rng, &mut state),
            _ => return Ok(()),
        }
        for (number, thread) in state.threads.iter().enumerate() {
            if *thread != self.machine.state.threads[number] {
                let value = u64::from(thread.priority);
                self.add(Record::Poke { field: script::PRIORITY, index: number as u8, value })?;
            }
        }
        Ok(())
    }

    /// What a stretch of events starts from. Gives how long it may be: on
    /// broken tables and wrong memories every answer is alike.
    fn start(&mut self) -> io::Result<u64> {
        self.equal = false;
        match self.rng.below(100) {
            0..=39 => {
                self.add(Record::Fresh)?;
                self.start_priorities()?;
                Ok(300)
            }
            40..=69 => {
                let state = tables::sound(&mut self.rng);
                self.poke_all(&tables::pokes(&state))?;
                self.start_priorities()?;
                Ok(120)
            }
            70..=84 => self.start_broken(),
            85..=89 => {
                let n = self.rng.pick(&[0, 1, 4096, WORDS - 1, MEMORY]) as u32;
                self.add(Record::Lend(n))?;
                Ok(6)
            }
            _ => {
                // The memory whole again, the tables left as they are.
                self.add(Record::Lend(WORDS as u32))?;
                Ok(100)
            }
        }
    }

    fn start_broken(&mut self) -> io::Result<u64> {
        let all = [tables::LIST_BREAKS, tables::RECORD_BREAKS, tables::PRIORITY_BREAKS].concat();
        let breaks = self.rng.pick(&all);
        // Some sound tables have no room for this break; the base always has.
        let state = tables::sound(&mut self.rng);
        let state =
            tables::broken(state, breaks).or_else(|| tables::broken(tables::base(), breaks));
        if let Some(state) = state {
            self.poke_all(&tables::pokes(&state))?;
        }
        Ok(6)
    }

    fn poke_all(&mut self, records: &[Record]) -> io::Result<()> {
        records.iter().try_for_each(|&record| self.add(record))
    }

    /// Shows the tables and the words that the histories like to change.
    fn show(&mut self) -> io::Result<()> {
        self.add(Record::Dump)?;
        for process in [0, 1, 7, self.rng.below(10) as u8] {
            for address in [0, 4, 8, 4092] {
                self.add(Record::Word { process, address })?;
            }
        }
        Ok(())
    }
}

/// Writes a script of `count` events.
pub fn write(seed: u64, count: u64, out: &mut impl Write) -> io::Result<()> {
    let (rng, machine) = (Rng::new(seed), Machine::fresh());
    let mut maker = Maker { rng, machine, equal: false, script: Vec::new(), out };
    let mut left = count;
    while left > 0 {
        let longest = maker.start()?;
        let length = left.min(1 + maker.rng.below(longest));
        for _ in 0..length {
            maker.event()?;
            if maker.rng.percent(3) {
                maker.show()?;
            }
        }
        maker.show()?;
        left -= length;
    }
    maker.out.write_all(&maker.script)
}
