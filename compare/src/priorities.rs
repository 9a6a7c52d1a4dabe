//! What came of the priorities of request (vi) of document 02, told from the tables
//! before and after an event: that each was kept that had to be, and what was done
//! to threads that have one, so that a run knows what it has tried.

use second::bytes::u32_at;
use second::layout::{PRIORITY, UADDR, WAITING};
use second::model::{Event, State, THREADS, THREADS_PER_PROCESS};

use crate::tally::Kind;

/// The most that a kind of event can do.
pub const FATES: usize = 3;

/// For each fate of the event's kind, whether it was seen.
pub type Fates = [bool; FATES];

const RELEASED: &str = "releases one with a priority";

/// What events of a kind can do to threads with a priority above 0, each with its
/// place.
pub fn fates(kind: Kind) -> &'static [&'static str] {
    match kind {
        "WAIT" | "WAIT_BITSET" => &["puts one with a priority to sleep"],
        "WAKE" | "WAKE_BITSET" | "WAKE_OP" => &[RELEASED],
        "REQUEUE" | "CMP_REQUEUE" => &[RELEASED, "moves one with a priority"],
        "clock" => &["times out one with a priority"],
        "interrupt" => &["interrupts one with a priority"],
        "set priority" => &["of a running thread", "of a sleeper", "from above 0 to 0"],
        _ => &[],
    }
}

/// In which record a priority can be too high, by its place among these.
pub const RECORDS: [&str; 2] = ["running", "waiting"];
pub type TooHigh = usize;

/// Where one priority is too high and nothing else breaks a rule. A query shows it
/// only if it would have answered something else.
pub fn too_high(event: &Event, state: &State) -> Option<TooHigh> {
    let number = state.threads.iter().position(|thread| thread.priority > 31)?;
    let mut mended = state.clone();
    mended.threads[number].priority = 0;
    let shown = match *event {
        Event::Query { process } => asleep(state, process),
        _ => true,
    };
    (shown && mended.rules_hold()).then_some(state.threads[number].waiting as usize)
}

/// Whether some thread of a process sleeps.
fn asleep(state: &State, process: u8) -> bool {
    let threads = state.threads.chunks(THREADS_PER_PROCESS).nth(process as usize);
    threads.is_some_and(|threads| threads.iter().any(|thread| thread.waiting))
}

fn thread(process: u8, index: u8) -> usize {
    THREADS_PER_PROCESS * process as usize + index as usize
}

/// An event leaves every priority. One that sets a priority, and answers 0, leaves
/// everything else.
pub fn are_kept(event: &Event, number: i64, before: &[u8], after: &[u8]) -> bool {
    match *event {
        Event::SetPriority { process, index, priority } if number == 0 => {
            let (was, is) = (before.iter(), after.iter());
            let target = PRIORITY + thread(process, index);
            was.zip(is).enumerate().all(|(place, (was, is))| match place == target {
                true => *is == priority,
                false => was == is,
            })
        }
        _ => before.get(PRIORITY..) == after.get(PRIORITY..),
    }
}

/// What an event that wasn't refused did, by the places of its kind's fates.
pub fn fates_of(event: &Event, before: &[u8], after: &[u8]) -> Fates {
    match *event {
        Event::Call(_) => {
            let (slept, ended, moved) = changes(before, after);
            [slept || ended, moved, false]
        }
        Event::Clock { .. } | Event::Interrupt { .. } => [changes(before, after).1, false, false],
        Event::SetPriority { process, index, priority } => {
            let number = thread(process, index);
            let asleep = before[WAITING + number] == 1;
            [!asleep, asleep, before[PRIORITY + number] > 0 && priority == 0]
        }
        _ => [false; FATES],
    }
}

/// Whether some thread with a priority fell asleep, ended its sleep, moved.
fn changes(before: &[u8], after: &[u8]) -> (bool, bool, bool) {
    let (mut slept, mut ended, mut moved) = (false, false, false);
    for number in (0..THREADS).filter(|number| before[PRIORITY + number] > 0) {
        match (before[WAITING + number], after[WAITING + number]) {
            (0, 1) => slept = true,
            (1, 0) => ended = true,
            (1, 1) => moved |= address(before, number) != address(after, number),
            _ => {}
        }
    }
    (slept, ended, moved)
}

fn address(tables: &[u8], number: usize) -> u32 {
    u32_at(tables, UADDR + 4 * number)
}
