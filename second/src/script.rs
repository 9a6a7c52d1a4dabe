//! A binary test script and what it prints. Records 1 to 5 are those of the
//! log (here any flag byte is let through); the others set up and show.

use std::io::{self, Write};

use crate::bytes::{u32_at, u64_at};
use crate::log;
use crate::model::{self, Event, State, Thread, NO_ENTRY, NO_SLEEP_ENDED, THREADS, WORDS};

/// One word more than the kernel wants, so that too long a memory can be lent.
pub const MEMORY: usize = WORDS + 1;

const QUERY: u8 = b'Q';
const FRESH: u8 = b'F';
const LEND: u8 = b'M';
const POKE: u8 = b'P';
const WORD: u8 = b'W';
const DUMP: u8 = b'D';

/// The fields that a poke can name.
pub const CLOCK: u8 = 0;
pub const COUNT: u8 = 1;
pub const LIST: u8 = 2;
pub const WAITING: u8 = 3;
pub const UADDR: u8 = 4;
pub const BITSET: u8 = 5;
pub const TIMED: u8 = 6;
pub const DEADLINE: u8 = 7;
pub const LAST: u8 = 8;
pub const PRIORITY: u8 = 9;

#[derive(Clone, Copy, Debug, PartialEq, Eq)]
pub enum Record {
    Event(Event),
    Fresh,
    Lend(u32),
    Poke { field: u8, index: u8, value: u64 },
    Word { process: u8, address: u32 },
    Dump,
}

fn body_length(kind: u8) -> Option<usize> {
    match kind {
        QUERY => Some(1),
        FRESH | DUMP => Some(0),
        LEND => Some(4),
        POKE => Some(10),
        WORD => Some(5),
        _ => log::body_length(kind),
    }
}

/// Reads the record at a place and gives the place after it; none if it is
/// cut, of an unknown kind, or names a memory or a field that isn't there.
pub fn read(bytes: &[u8], place: usize) -> Option<(Record, usize)> {
    let kind = *bytes.get(place)?;
    let length = body_length(kind)?;
    let body = bytes.get(place + 1..place + 1 + length)?;
    let record = match kind {
        QUERY => Record::Event(Event::Query { process: body[0] }),
        FRESH => Record::Fresh,
        DUMP => Record::Dump,
        LEND => Record::Lend(u32_at(body, 0)),
        POKE => Record::Poke { field: body[0], index: body[1], value: u64_at(body, 2) },
        WORD => Record::Word { process: body[0], address: u32_at(body, 1) },
        _ => Record::Event(log::decode_body(kind, body)),
    };
    let good = match record {
        Record::Lend(n) => n as usize <= MEMORY,
        Record::Poke { field, .. } => field <= PRIORITY,
        _ => true,
    };
    good.then_some((record, place + 1 + length))
}

/// Adds the bytes of a record to a script.
pub fn write(record: &Record, script: &mut Vec<u8>) {
    match *record {
        Record::Event(Event::Query { process }) => script.extend([QUERY, process]),
        Record::Event(ref event) => {
            if let Some((bytes, length)) = log::encode(event) {
                script.extend(&bytes[..length]);
            }
        }
        Record::Fresh => script.push(FRESH),
        Record::Dump => script.push(DUMP),
        Record::Lend(n) => {
            script.push(LEND);
            script.extend(n.to_le_bytes());
        }
        Record::Poke { field, index, value } => {
            script.extend([POKE, field, index]);
            script.extend(value.to_le_bytes());
        }
        Record::Word { process, address } => {
            script.extend([WORD, process]);
            script.extend(address.to_le_bytes());
        }
    }
}

/// What a script runs on.
pub struct Machine {
    pub state: State,
    pub memory: Vec<u32>,
    pub lent: usize,
}

impl Machine {
    pub fn fresh() -> Machine {
        Machine { state: State::fresh(), memory: vec![0; MEMORY], lent: WORDS }
    }

    /// Does what a record says and prints what it prints.
    pub fn apply(&mut self, record: &Record, out: &mut impl Write) -> io::Result<()> {
        match *record {
            Record::Event(ref event) => {
                let words = &mut self.memory[..self.lent];
                let report = model::step(&mut self.state, words, event);
                writeln!(out, "{report}")
            }
            Record::Fresh => {
                self.state = State::fresh();
                self.memory.fill(0);
                self.lent = WORDS;
                Ok(())
            }
            Record::Lend(n) => {
                self.lent = n as usize;
                Ok(())
            }
            Record::Poke { field, index, value } => {
                poke(&mut self.state, field, index, value);
                Ok(())
            }
            Record::Word { process, address } => {
                writeln!(out, "{}", self.word(process, address))
            }
            Record::Dump => dump(&self.state, out),
        }
    }

    /// A word of the whole memory, lent or not; 0 beyond it.
    fn word(&self, process: u8, address: u32) -> u32 {
        let number = 1024 * process as usize + (address / 4) as usize;
        self.memory.get(number).copied().unwrap_or(0)
    }
}

/// Sets one field of the tables, cut to the field's width.
fn poke(state: &mut State, field: u8, index: u8, value: u64) {
    let index = index as usize % THREADS;
    let thread = &mut state.threads[index];
    match field {
        CLOCK => state.clock = value,
        COUNT => state.count = value,
        LIST => state.list[index] = value as u8,
        WAITING => thread.waiting = value % 2 == 1,
        UADDR => thread.uaddr = value as u32,
        BITSET => thread.bitset = value as u32,
        TIMED => thread.timed = value % 2 == 1,
        DEADLINE => thread.deadline = value,
        LAST => thread.last = (value % 4) as u8,
        _ => thread.priority = value as u8,
    }
}

/// Prints the tables: of list and threads, only what differs from fresh ones.
fn dump(state: &State, out: &mut impl Write) -> io::Result<()> {
    writeln!(out, "clock {} count {}", state.clock, state.count)?;
    write!(out, "list")?;
    for (place, entry) in state.list.iter().enumerate() {
        if *entry != NO_ENTRY {
            write!(out, " {place}:{entry}")?;
        }
    }
    writeln!(out)?;
    for (number, t) in state.threads.iter().enumerate() {
        if *t != Thread::running(NO_SLEEP_ENDED, 0) {
            let (waiting, timed) = (t.waiting as u8, t.timed as u8);
            writeln!(
                out,
                "thread {number} {waiting} {} {} {timed} {} {} {}",
                t.uaddr, t.bitset, t.deadline, t.last, t.priority
            )?;
        }
    }
    Ok(())
}

/// Runs a whole script. One that is cut or unknown ends with `bad script`.
pub fn run(bytes: &[u8], out: &mut impl Write) -> io::Result<()> {
    let mut machine = Machine::fresh();
    let mut place = 0;
    while place < bytes.len() {
        let Some((record, next)) = read(bytes, place) else {
            return writeln!(out, "bad script");
        };
        machine.apply(&record, out)?;
        place = next;
    }
    Ok(())
}

/// A script in the making, for scripts that are written by hand.
#[derive(Default)]
pub struct Script {
    pub bytes: Vec<u8>,
}

impl Script {
    pub fn add(&mut self, record: Record) {
        write(&record, &mut self.bytes);
    }

    pub fn fresh(&mut self) {
        self.add(Record::Fresh);
    }

    pub fn lend(&mut self, words: usize) {
        self.add(Record::Lend(words as u32));
    }

    pub fn event(&mut self, event: Event) {
        self.add(Record::Event(event));
    }

    pub fn events(&mut self, events: &[Event]) {
        for &event in events {
            self.event(event);
        }
    }

    pub fn word(&mut self, process: u8, address: u32) {
        self.add(Record::Word { process, address });
    }

    pub fn dump(&mut self) {
        self.add(Record::Dump);
    }
}
