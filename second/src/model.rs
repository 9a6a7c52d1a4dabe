//! The futex kernel by the rules of document 01 and requests (i), (ii), (vi) and
//! (vii) of document 02: the events, what they report and `step`, which applies one
//! event to the tables and the lent words.

mod calls;
mod order;
mod tables;

use std::fmt;

use order::Sleepers;
pub use tables::{State, Thread, INTERRUPTED, NO_ENTRY, NO_SLEEP_ENDED, TIMED_OUT, WOKEN};

/// Eight processes of eight threads each.
pub const PROCESSES: usize = 8;
pub const THREADS_PER_PROCESS: usize = 8;
pub const THREADS: usize = PROCESSES * THREADS_PER_PROCESS;
/// Each process has 1,024 futex words, at byte addresses 0, 4, .. 4092.
pub const WORDS_PER_PROCESS: usize = 1024;
pub const WORDS: usize = PROCESSES * WORDS_PER_PROCESS;
pub const FIRST_BAD_ADDRESS: u32 = 4 * WORDS_PER_PROCESS as u32;
/// A base priority is 0, as at the start, up to this.
pub const HIGHEST_PRIORITY: u8 = 31;

// The refusals, with the names that the Linux headers give them.
pub const ESRCH: i32 = -3;
pub const ENXIO: i32 = -6;
pub const EBADF: i32 = -9;
pub const EAGAIN: i32 = -11;
pub const ENOMEM: i32 = -12;
pub const EFAULT: i32 = -14;
pub const EBUSY: i32 = -16;
pub const EINVAL: i32 = -22;
pub const ENOSYS: i32 = -38;
pub const ETIMEDOUT: i32 = -110;

// The reasons beside a number: which argument rule was broken. Only -22 has one.
pub const NO_REASON: u8 = 0;
pub const FIRST_CAP: u8 = 1;
pub const SECOND_CAP: u8 = 2;
pub const MASK_ZERO: u8 = 3;
pub const UADDR_NOT_ALIGNED: u8 = 4; // also a store's address
pub const UADDR2_NOT_ALIGNED: u8 = 5;
pub const SAME_ADDRESS: u8 = 6;
pub const CLOCK_WENT_BACK: u8 = 7;
pub const PRIORITY_HIGH: u8 = 8;

/// The command numbers.
pub const WAIT: u32 = 0;
pub const WAKE: u32 = 1;
pub const REQUEUE: u32 = 3;
pub const CMP_REQUEUE: u32 = 4;
pub const WAKE_OP: u32 = 5;
pub const WAIT_BITSET: u32 = 9;
pub const WAKE_BITSET: u32 = 10;
/// The option bits.
pub const PRIVATE_BIT: u32 = 128;
pub const CLOCK_BIT: u32 = 256;

/// The arguments of one futex call, as they arrive.
#[derive(Clone, Copy, Debug, Default, PartialEq, Eq)]
pub struct Call {
    pub process: u8,
    pub index: u8,
    pub op: u32,
    pub uaddr: u32,
    pub val: u32,
    /// "Timeout given": 0 is no, anything above counts as 1.
    pub flag: u8,
    pub timeout: u64,
    pub uaddr2: u32,
    pub val3: u32,
}

/// All that can happen to the kernel.
#[derive(Clone, Copy, Debug, PartialEq, Eq)]
pub enum Event {
    Call(Call),
    Store { process: u8, address: u32, value: u32 },
    Clock { time: u64 },
    Interrupt { process: u8, index: u8 },
    SetPriority { process: u8, index: u8, priority: u8 },
    Query { process: u8 },
}

/// What an event answers.
#[derive(Clone, Copy, Debug, PartialEq, Eq)]
pub enum Answer {
    Asleep,
    Number(i32),
    /// The waiting threads as bits, how many they are, the lowest (8 if none).
    Panel(u8, u32, u32),
}

impl fmt::Display for Answer {
    /// An answer as replays print it.
    fn fmt(&self, out: &mut fmt::Formatter) -> fmt::Result {
        match self {
            Answer::Asleep => write!(out, "asleep"),
            Answer::Number(number) => write!(out, "{number}"),
            Answer::Panel(bits, count, lowest) => write!(out, "{bits} {count} {lowest}"),
        }
    }
}

/// All that an event reports.
#[derive(Clone, Copy, Debug, PartialEq, Eq)]
pub struct Report {
    pub answer: Answer,
    pub reason: u8,
}

impl Report {
    /// An answer that needs no reason.
    pub fn plain(answer: Answer) -> Report {
        Report { answer, reason: NO_REASON }
    }
}

impl fmt::Display for Report {
    /// A report as scripts print it: the answer, then the reason if there is one.
    fn fmt(&self, out: &mut fmt::Formatter) -> fmt::Result {
        match self.reason {
            NO_REASON => write!(out, "{}", self.answer),
            reason => write!(out, "{} reason {reason}", self.answer),
        }
    }
}

/// A test that didn't pass: the number to answer, and why.
struct Refusal {
    number: i32,
    reason: u8,
}

impl Refusal {
    /// -22, the one refusal that has a reason.
    fn argument(reason: u8) -> Refusal {
        Refusal { number: EINVAL, reason }
    }
}

/// Every other refusal is its number alone.
impl From<i32> for Refusal {
    fn from(number: i32) -> Refusal {
        Refusal { number, reason: NO_REASON }
    }
}

/// Applies one event. The lent memory and the tables are tested first, except
/// that a panel query takes no words.
pub fn step(state: &mut State, words: &mut [u32], event: &Event) -> Report {
    let panel = matches!(event, Event::Query { .. });
    if !panel && words.len() != WORDS {
        return Report::plain(Answer::Number(ENXIO));
    }
    match state.rules_hold() {
        true => step_sound(state, words, event),
        false if panel => Report::plain(Answer::Panel(0, 0, 8)),
        false => Report::plain(Answer::Number(EBADF)),
    }
}

/// The same without these two tests, for a caller whose memory has its length
/// and whose tables are sound: they stay so. A refusal is an `Err` inside, so
/// that each test can leave at once; nothing is changed before the last test
/// has passed.
pub fn step_sound(state: &mut State, words: &mut [u32], event: &Event) -> Report {
    let result = match *event {
        Event::Call(ref call) => calls::call(state, words, call),
        Event::Store { process, address, value } => store(words, process, address, value),
        Event::Clock { time } => clock(state, time),
        Event::Interrupt { process, index } => interrupt(state, process, index),
        Event::SetPriority { process, index, priority } => {
            set_priority(state, process, index, priority)
        }
        Event::Query { process } => Ok(query(state, process)),
    };
    match result {
        Ok(answer) => Report::plain(answer),
        Err(Refusal { number, reason }) => Report { answer: Answer::Number(number), reason },
    }
}

/// Thread (p, i) has number 8p + i; a number above 7 names no thread.
fn thread_number(process: u8, index: u8) -> Option<usize> {
    let (process, index) = (process as usize, index as usize);
    if process < PROCESSES && index < THREADS_PER_PROCESS {
        Some(THREADS_PER_PROCESS * process + index)
    } else {
        None
    }
}

/// Where the word of a process lies in the lent memory. Only asked after the
/// process and the address have been tested.
fn word_number(process: u8, address: u32) -> usize {
    WORDS_PER_PROCESS * process as usize + (address / 4) as usize
}

fn store(words: &mut [u32], process: u8, address: u32, value: u32) -> Result<Answer, Refusal> {
    if process as usize >= PROCESSES {
        return Err(ESRCH.into());
    }
    if address % 4 != 0 {
        return Err(Refusal::argument(UADDR_NOT_ALIGNED));
    }
    if address >= FIRST_BAD_ADDRESS {
        return Err(EFAULT.into());
    }
    words[word_number(process, address)] = value;
    Ok(Answer::Number(0))
}

fn clock(state: &mut State, time: u64) -> Result<Answer, Refusal> {
    if time < state.clock {
        return Err(Refusal::argument(CLOCK_WENT_BACK));
    }
    state.clock = time;
    let over = |_: usize, thread: &Thread| thread.timed && thread.deadline <= time;
    Ok(Answer::Number(state.end_sleeps(TIMED_OUT, over)))
}

fn interrupt(state: &mut State, process: u8, index: u8) -> Result<Answer, Refusal> {
    let target = thread_number(process, index).ok_or(ESRCH)?;
    // Only waiting threads are on the list, so a running one ends nothing: 0.
    Ok(Answer::Number(state.end_sleeps(INTERRUPTED, |number, _| number == target)))
}

/// Of a sleeper as of a running thread. Nobody changes places for it: the next wake
/// or requeue asks for the priorities as they are then.
fn set_priority(
    state: &mut State,
    process: u8,
    index: u8,
    priority: u8,
) -> Result<Answer, Refusal> {
    let target = thread_number(process, index).ok_or(ESRCH)?;
    if priority > HIGHEST_PRIORITY {
        return Err(Refusal::argument(PRIORITY_HIGH));
    }
    state.threads[target].priority = priority;
    Ok(Answer::Number(0))
}

fn query(state: &State, process: u8) -> Answer {
    if process as usize >= PROCESSES {
        return Answer::Panel(0, 0, 8);
    }
    let mut bits = 0u8;
    for index in 0..THREADS_PER_PROCESS {
        if state.threads[THREADS_PER_PROCESS * process as usize + index].waiting {
            bits |= 1 << index;
        }
    }
    // For an empty byte trailing_zeros is 8, just what the panel wants.
    Answer::Panel(bits, bits.count_ones(), bits.trailing_zeros())
}
