//! Tables and words as bytes, as a host kernel written in C hands them over.
//!
//! Tables are 1,360 bytes in columns, little-endian: clock at 0, count at 8,
//! list at 16, waiting at 80, timed at 144, last answer at 208, uaddr at 272,
//! bitset at 528, deadline at 784, priority at 1296. Words are 32,768 bytes.

use crate::bytes::{put_u32, put_u64, u32_at, u64_at};
use crate::model::{
    self, Answer, Call, Event, Report, State, Thread, EBADF, ENXIO, INTERRUPTED, THREADS, WORDS,
};

pub const TABLE_BYTES: usize = 1360;
pub const WORD_BYTES: usize = 4 * WORDS;
/// "Asleep" as a number.
pub const ASLEEP: i32 = 2147483647;

pub const COUNT: usize = 8;
pub const LIST: usize = 16;
pub const WAITING: usize = 80;
pub const TIMED: usize = 144;
pub const LAST: usize = 208;
pub const UADDR: usize = 272;
pub const BITSET: usize = 528;
pub const DEADLINE: usize = 784;
pub const PRIORITY: usize = 1296;

/// The tables that the bytes stand for. None for a wrong length or a byte that
/// stands for nothing; the table rules are not tested here, so any priority can
/// be held.
pub fn decode(bytes: &[u8]) -> Option<State> {
    if bytes.len() != TABLE_BYTES {
        return None;
    }
    let mut state = State::fresh();
    state.clock = u64_at(bytes, 0);
    state.count = u64_at(bytes, COUNT);
    state.list.copy_from_slice(&bytes[LIST..LIST + THREADS]);
    for number in 0..THREADS {
        state.threads[number] = decode_thread(bytes, number)?;
    }
    Some(state)
}

fn decode_thread(bytes: &[u8], number: usize) -> Option<Thread> {
    let last = bytes[LAST + number];
    if last > INTERRUPTED {
        return None;
    }
    Some(Thread {
        waiting: yes_or_no(bytes[WAITING + number])?,
        timed: yes_or_no(bytes[TIMED + number])?,
        last,
        uaddr: u32_at(bytes, UADDR + 4 * number),
        bitset: u32_at(bytes, BITSET + 4 * number),
        deadline: u64_at(bytes, DEADLINE + 8 * number),
        priority: bytes[PRIORITY + number],
    })
}

fn yes_or_no(byte: u8) -> Option<bool> {
    match byte {
        0 => Some(false),
        1 => Some(true),
        _ => None,
    }
}

/// The bytes of tables.
pub fn encode(state: &State) -> [u8; TABLE_BYTES] {
    let mut bytes = [0; TABLE_BYTES];
    encode_into(state, &mut bytes);
    bytes
}

/// The same, into bytes that are there already.
pub fn encode_into(state: &State, bytes: &mut [u8; TABLE_BYTES]) {
    put_u64(bytes, 0, state.clock);
    put_u64(bytes, COUNT, state.count);
    bytes[LIST..LIST + THREADS].copy_from_slice(&state.list);
    for (number, thread) in state.threads.iter().enumerate() {
        bytes[WAITING + number] = thread.waiting as u8;
        bytes[TIMED + number] = thread.timed as u8;
        bytes[LAST + number] = thread.last;
        put_u32(bytes, UADDR + 4 * number, thread.uaddr);
        put_u32(bytes, BITSET + 4 * number, thread.bitset);
        put_u64(bytes, DEADLINE + 8 * number, thread.deadline);
        bytes[PRIORITY + number] = thread.priority;
    }
}

/// Words from bytes, each little-endian.
pub fn decode_words(bytes: &[u8]) -> Vec<u32> {
    bytes.chunks_exact(4).map(|word| u32_at(word, 0)).collect()
}

pub fn encode_words(words: &[u32], bytes: &mut [u8]) {
    for (word, place) in words.iter().zip(bytes.chunks_exact_mut(4)) {
        place.copy_from_slice(&word.to_le_bytes());
    }
}

/// One event on what tables stand for (none if they stand for nothing) and on
/// words of `lent` bytes. The words' length comes first, since a call tests the
/// lent memory before the tables; a panel query takes no words.
pub fn step(state: Option<&mut State>, lent: usize, words: &mut [u32], event: &Event) -> Report {
    let panel = matches!(event, Event::Query { .. });
    match state {
        _ if !panel && lent != WORD_BYTES => Report::plain(Answer::Number(ENXIO)),
        None if panel => Report::plain(Answer::Panel(0, 0, 8)),
        None => Report::plain(Answer::Number(EBADF)),
        Some(state) => model::step(state, words, event),
    }
}

/// An answer as the one number that a host gets.
pub fn number(answer: Answer) -> i64 {
    match answer {
        Answer::Asleep => ASLEEP as i64,
        Answer::Number(number) => number as i64,
        Answer::Panel(bits, count, lowest) => {
            bits as i64 + 256 * count as i64 + 65536 * lowest as i64
        }
    }
}

/// One event that is not a query.
fn apply(tables: &mut [u8], words: &mut [u8], event: &Event) -> i32 {
    let mut state = decode(tables);
    let mut numbers = decode_words(words);
    let report = step(state.as_mut(), words.len(), &mut numbers, event);
    if let (Some(state), WORD_BYTES) = (state, words.len()) {
        tables.copy_from_slice(&encode(&state));
        encode_words(&numbers, words);
    }
    number(report.answer) as i32
}

pub fn call(tables: &mut [u8], words: &mut [u8], call: &Call) -> i32 {
    apply(tables, words, &Event::Call(*call))
}

pub fn store(tables: &mut [u8], words: &mut [u8], process: u8, address: u32, value: u32) -> i32 {
    apply(tables, words, &Event::Store { process, address, value })
}

pub fn clock(tables: &mut [u8], words: &mut [u8], time: u64) -> i32 {
    apply(tables, words, &Event::Clock { time })
}

pub fn interrupt(tables: &mut [u8], words: &mut [u8], process: u8, index: u8) -> i32 {
    apply(tables, words, &Event::Interrupt { process, index })
}

pub fn set_priority(
    tables: &mut [u8],
    words: &mut [u8],
    process: u8,
    index: u8,
    priority: u8,
) -> i32 {
    apply(tables, words, &Event::SetPriority { process, index, priority })
}

/// The three numbers of a panel query.
pub fn query(tables: &[u8], process: u8) -> (u8, u32, u32) {
    match step(decode(tables).as_mut(), 0, &mut [], &Event::Query { process }).answer {
        Answer::Panel(bits, count, lowest) => (bits, count, lowest),
        _ => (0, 0, 8),
    }
}
