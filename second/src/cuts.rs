//! A binary script of cut logs: which log, which reader state, which pieces of
//! the log, and what the reader makes of each.

use std::io::{self, BufRead, ErrorKind, Read, Write};

use crate::bytes::u32_at;
use crate::log::{CALL, CLOCK, INTERRUPT, SET_PRIORITY, STORE};
use crate::model::{Call, Event};
use crate::pieces::{Ended, Reader, HELD};

/// The longest log that a script can bring.
pub const LONGEST_LOG: usize = 131072;

const LOG: u8 = b'L';
const START: u8 = b'N';
const STATE: u8 = b'S';
const PIECE: u8 = b'P';
const OVER: u8 = b'O';

/// Runs a script as it comes. One that is cut or unknown, or names bytes that
/// aren't there, ends with `bad script`.
pub fn run(input: &mut impl BufRead, out: &mut impl Write) -> io::Result<()> {
    let mut machine = Machine { log: Vec::new(), reader: Reader::start() };
    loop {
        match machine.command(input, out) {
            Ok(true) => {}
            Ok(false) => return Ok(()),
            Err(error) if is_bad_script(&error) => return writeln!(out, "bad script"),
            Err(error) => return Err(error),
        }
    }
}

fn bad_script() -> io::Error {
    ErrorKind::InvalidData.into()
}

/// A command that is cut shows as an input that ends too early.
fn is_bad_script(error: &io::Error) -> bool {
    matches!(error.kind(), ErrorKind::InvalidData | ErrorKind::UnexpectedEof)
}

fn take<const N: usize>(input: &mut impl BufRead) -> io::Result<[u8; N]> {
    let mut bytes = [0; N];
    input.read_exact(&mut bytes)?;
    Ok(bytes)
}

/// What a script runs on.
struct Machine {
    log: Vec<u8>,
    reader: Reader,
}

impl Machine {
    /// Does what the next command says and prints what it prints; false where
    /// the script ends.
    fn command(&mut self, input: &mut impl BufRead, out: &mut impl Write) -> io::Result<bool> {
        let Some(kind) = input.by_ref().bytes().next().transpose()? else {
            return Ok(false);
        };
        match kind {
            LOG => self.take_log(input)?,
            START => self.reader = Reader::start(),
            STATE => self.reader = decode(&take(input)?).ok_or_else(bad_script)?,
            PIECE => {
                let places: [u8; 8] = take(input)?;
                let (from, to) = (u32_at(&places, 0) as usize, u32_at(&places, 4) as usize);
                let piece = self.log.get(from..to).ok_or_else(bad_script)?;
                let mut seen = Seen::nothing();
                let answer = self.reader.piece(piece, |event| seen.add(event));
                out.write_all(&line(&seen, answer, &self.reader))?;
            }
            OVER => {
                let answer = self.reader.over();
                out.write_all(&line(&Seen::nothing(), Some(answer), &self.reader))?;
            }
            _ => return Err(bad_script()),
        }
        Ok(true)
    }

    fn take_log(&mut self, input: &mut impl BufRead) -> io::Result<()> {
        let length = u32_at(&take::<4>(input)?, 0) as usize;
        if length > LONGEST_LOG {
            return Err(bad_script());
        }
        self.log.resize(length, 0);
        input.read_exact(&mut self.log)
    }
}

/// How many events came, and a sum over the numbers of their records. It goes
/// by number and not by byte, since it would take longer than the reading.
pub struct Seen {
    pub events: u64,
    pub sum: u64,
}

impl Seen {
    pub const fn nothing() -> Seen {
        Seen { events: 0, sum: 0 }
    }

    pub fn add(&mut self, event: &Event) {
        self.events += 1;
        match *event {
            Event::Call(ref call) => self.add_call(call),
            Event::Store { process, address, value } => {
                self.add_numbers([STORE.into(), process.into(), address.into(), value.into()]);
            }
            Event::Clock { time } => self.add_numbers([CLOCK.into(), time]),
            Event::Interrupt { process, index } => {
                self.add_numbers([INTERRUPT.into(), process.into(), index.into()]);
            }
            Event::SetPriority { process, index, priority } => {
                let kind = SET_PRIORITY.into();
                self.add_numbers([kind, process.into(), index.into(), priority.into()]);
            }
            Event::Query { .. } => {} // no record is a query
        }
    }

    fn add_call(&mut self, call: &Call) {
        self.add_numbers([
            CALL.into(),
            call.process.into(),
            call.index.into(),
            call.op.into(),
            call.uaddr.into(),
            call.val.into(),
            call.flag.into(),
            call.timeout,
            call.uaddr2.into(),
            call.val3.into(),
        ]);
    }

    fn add_numbers<const N: usize>(&mut self, numbers: [u64; N]) {
        for number in numbers {
            self.sum = self.sum.rotate_left(7) ^ number;
        }
    }
}

/// A reader state as bytes: how it ended, the count, the held bytes.
const STATE_BYTES: usize = 2 + HELD;

/// How a state ended, by the number that stands for it.
const ENDS: [Option<Ended>; 4] =
    [None, Some(Ended::Clean), Some(Ended::Unreadable), Some(Ended::Cut)];

fn decode(bytes: &[u8; STATE_BYTES]) -> Option<Reader> {
    let ended = *ENDS.get(bytes[0] as usize)?;
    let mut held = [0; HELD];
    held.copy_from_slice(&bytes[2..]);
    Some(Reader { ended, count: bytes[1], held })
}

fn encode(reader: &Reader) -> [u8; STATE_BYTES] {
    let mut bytes = [0; STATE_BYTES];
    bytes[0] = ENDS.iter().position(|ended| *ended == reader.ended).map_or(0, |code| code as u8);
    bytes[1] = reader.count;
    bytes[2..].copy_from_slice(&reader.held);
    bytes
}

/// What a piece or the word "over" prints.
fn line(seen: &Seen, answer: Option<Ended>, reader: &Reader) -> Vec<u8> {
    let answer = answer.map_or("more".to_string(), |ended| ended.to_string());
    let mut line = format!("{} {:016x} {answer} ", seen.events, seen.sum).into_bytes();
    for byte in encode(reader) {
        line.extend([byte >> 4, byte & 15].map(|digit| b"0123456789abcdef"[digit as usize]));
    }
    line.push(b'\n');
    line
}

/// A script in the making.
pub struct Script<'a, W: Write> {
    pub out: &'a mut W,
}

impl<W: Write> Script<'_, W> {
    /// The log from now on; it is not longer than a script can bring.
    pub fn log(&mut self, log: &[u8]) -> io::Result<()> {
        self.out.write_all(&[LOG])?;
        self.out.write_all(&(log.len() as u32).to_le_bytes())?;
        self.out.write_all(log)
    }

    pub fn start(&mut self) -> io::Result<()> {
        self.out.write_all(&[START])
    }

    pub fn state(&mut self, reader: &Reader) -> io::Result<()> {
        self.out.write_all(&[STATE])?;
        self.out.write_all(&encode(reader))
    }

    pub fn piece(&mut self, from: usize, to: usize) -> io::Result<()> {
        self.out.write_all(&[PIECE])?;
        self.out.write_all(&(from as u32).to_le_bytes())?;
        self.out.write_all(&(to as u32).to_le_bytes())
    }

    pub fn over(&mut self) -> io::Result<()> {
        self.out.write_all(&[OVER])
    }
}
