//! Every refusal of the table of answers, and the order between them: each
//! event with every set of its possible faults at once, up to a size.

use crate::model::{Call, Event, CLOCK_BIT, CMP_REQUEUE, WAIT, WAIT_BITSET, WAKE_OP, WORDS};
use crate::script::{self, Record, Script};
use crate::shorthand as s;

// The faults, in the order of the table of answers.
const MEMORY: u32 = 1 << 0;
const TABLES: u32 = 1 << 1;
const NUMBERS: u32 = 1 << 2;
const BUSY: u32 = 1 << 3;
const COMMAND: u32 = 1 << 4;
const ARGUMENT: u32 = 1 << 5;
const ADDRESS: u32 = 1 << 6;
const OPERATION: u32 = 1 << 7;
const WORD: u32 = 1 << 8;
const TIME: u32 = 1 << 9;

/// Faults of one event at the same time.
pub fn add(script: &mut Script, most: u32) {
    for faults in (0u32..1 << 10).filter(|faults| faults.count_ones() <= most) {
        for op in [WAIT, WAIT_BITSET, CMP_REQUEUE, WAKE_OP] {
            if faults & !possible(op) == 0 {
                call(script, faults, op);
            }
        }
    }
    for faults in (0u32..1 << 5).filter(|faults| faults.count_ones() <= most) {
        other_events(script, faults);
    }
}

/// The event that sets a priority with every set of its faults, of a sleeper and
/// of a thread that runs: the memory, the tables, the process, the index, the
/// priority.
pub fn add_priorities(script: &mut Script) {
    for faults in 0u32..1 << 5 {
        let has = |bit: u32| faults & bit != 0;
        prepare(script, faults & (MEMORY | TABLES));
        let process = if has(NUMBERS) { 8 } else { 1 };
        let priorities = if has(16) { [32, 255] } else { [31, 1] };
        for (index, priority) in [0, 1].into_iter().zip(priorities) {
            let index = if has(8) { 8 + index } else { index };
            script.event(s::set_priority((process, index), priority));
        }
        script.dump();
    }
}

/// The faults that a command can have.
fn possible(op: u32) -> u32 {
    let all = MEMORY | TABLES | NUMBERS | BUSY | COMMAND | ARGUMENT | ADDRESS;
    match op {
        WAKE_OP => all | OPERATION,
        CMP_REQUEUE => all | WORD,
        _ => all | WORD | TIME,
    }
}

/// Clock 50; threads (0, 0) and (1, 0) sleep, since a thread that is out of
/// range by its index, (0, 8), has the same number as (1, 0).
fn prepare(script: &mut Script, faults: u32) {
    script.fresh();
    script.events(&[s::clock(50), s::wait((1, 0), 8, 0), s::wait((0, 1), 8, 0)]);
    if faults & BUSY != 0 {
        script.event(s::wait((0, 0), 8, 0));
    }
    if faults & TABLES != 0 {
        script.add(Record::Poke { field: script::LIST, index: 63, value: 0 });
    }
    if faults & MEMORY != 0 {
        script.lend(WORDS - 1);
    }
}

fn call(script: &mut Script, faults: u32, op: u32) {
    prepare(script, faults);
    script.event(Event::Call(faulty(faults, op)));
    script.dump();
    script.word(0, 8);
    script.word(0, 16);
}

/// A call that is good but for these faults.
fn faulty(faults: u32, op: u32) -> Call {
    let has = |fault| faults & fault != 0;
    let mut call = Call { op, uaddr: 8, val: 1, flag: 1, uaddr2: 16, ..Call::default() };
    match op {
        WAIT | WAIT_BITSET => {
            call.val = has(WORD) as u32;
            call.timeout = if has(TIME) { 0 } else { 51 };
            call.val3 = 1;
        }
        CMP_REQUEUE => call.val3 = has(WORD) as u32,
        _ => call.val3 = if has(OPERATION) { 0x5600_0000 } else { 0x1000_1000 },
    }
    if has(NUMBERS) {
        // Out of range by the index for two commands, by the process for two.
        (call.process, call.index) = if matches!(op, WAIT | CMP_REQUEUE) { (0, 8) } else { (8, 0) };
    }
    if has(COMMAND) {
        call.op |= CLOCK_BIT;
    }
    if has(ADDRESS) {
        call.uaddr = 4096;
    }
    if has(ARGUMENT) {
        match op {
            WAIT => call.uaddr += 2,
            WAIT_BITSET => call.val3 = 0,
            CMP_REQUEUE => call.uaddr2 = call.uaddr,
            _ => call.timeout = 1 << 31,
        }
    }
    call
}

/// Stores, clock events, interrupts and queries with their faults.
fn other_events(script: &mut Script, faults: u32) {
    let has = |bit: u32| faults & bit != 0;
    prepare(script, faults & (MEMORY | TABLES));
    let process = if has(NUMBERS) { 8 } else { 1 };
    let address = if has(8) { 2 } else { 0 } + if has(16) { 4096 } else { 8 };
    let index = if has(8) { 8 } else { 0 };
    let time = if has(NUMBERS) { 49 } else { 50 };
    script.event(s::store(process, address, 6));
    script.word(1, 8);
    script.word(process, address);
    script.event(s::interrupt((process, index)));
    script.events(&[s::query(process), s::clock(time)]);
    script.dump();
}
