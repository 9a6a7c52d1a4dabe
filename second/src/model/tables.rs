//! The tables: the clock, 64 thread records and the arrival list, the rules
//! they keep, and the few ways in which sleepers come, go and move.

use super::{FIRST_BAD_ADDRESS, HIGHEST_PRIORITY, THREADS, THREADS_PER_PROCESS};

/// What stands in the arrival list where no thread does.
pub const NO_ENTRY: u8 = 255;

// The last answer is kept as a code, since the tables as bytes hold a code and
// may hold one that stands for nothing.
pub const NO_SLEEP_ENDED: u8 = 0; // document 01's 1
pub const WOKEN: u8 = 1; // document 01's 0
pub const TIMED_OUT: u8 = 2; // -110
pub const INTERRUPTED: u8 = 3; // -4

/// One thread record.
#[derive(Clone, Copy, Debug, PartialEq, Eq)]
pub struct Thread {
    pub waiting: bool,
    pub uaddr: u32,
    pub bitset: u32,
    pub timed: bool,
    pub deadline: u64,
    pub last: u8,
    /// Kept through every sleep; only its own event changes it.
    pub priority: u8,
}

impl Thread {
    /// A running record: zeros for all that only a waiter has.
    pub const fn running(last: u8, priority: u8) -> Thread {
        Thread { waiting: false, uaddr: 0, bitset: 0, timed: false, deadline: 0, last, priority }
    }

    /// Ends a sleep. Of the record the priority alone is kept.
    fn end(&mut self, last: u8) {
        *self = Thread::running(last, self.priority);
    }

    /// The table rules that speak of one record alone.
    fn rules_hold(&self, clock: u64) -> bool {
        if self.last > INTERRUPTED || self.priority > HIGHEST_PRIORITY {
            return false;
        }
        if !self.waiting {
            return *self == Thread::running(self.last, self.priority);
        }
        let deadline_good = if self.timed { self.deadline > clock } else { self.deadline == 0 };
        self.uaddr % 4 == 0 && self.uaddr < FIRST_BAD_ADDRESS && self.bitset != 0 && deadline_good
    }

    /// Whether this record, that of thread `number`, is in the queue of a
    /// word. Every futex is private to its process, so the address alone
    /// doesn't name it.
    pub fn waits_at(&self, number: usize, process: u8, address: u32) -> bool {
        self.waiting && number / THREADS_PER_PROCESS == process as usize && self.uaddr == address
    }
}

/// Threads in an order: that of the list, or that in which they are taken off it.
pub struct Row {
    list: [u8; THREADS],
    count: usize,
}

impl Row {
    pub const EMPTY: Row = Row { list: [NO_ENTRY; THREADS], count: 0 };

    pub fn entries(&self) -> &[u8] {
        &self.list[..self.count]
    }

    pub fn entries_mut(&mut self) -> &mut [u8] {
        &mut self.list[..self.count]
    }

    pub fn push(&mut self, entry: u8) {
        self.list[self.count] = entry;
        self.count += 1;
    }

    /// Leaves the first `count` of them, or all if they are fewer.
    pub fn truncate(&mut self, count: usize) {
        self.count = self.count.min(count);
    }
}

/// The tables. Any value of any field can be held, broken ones too.
#[derive(Clone, Debug, PartialEq, Eq)]
pub struct State {
    pub clock: u64,
    pub threads: [Thread; THREADS],
    pub list: [u8; THREADS],
    pub count: u64,
}

impl State {
    /// Clock 0, all running, no sleep ended yet, priorities 0, list empty.
    pub const fn fresh() -> State {
        State {
            clock: 0,
            threads: [Thread::running(NO_SLEEP_ENDED, 0); THREADS],
            list: [NO_ENTRY; THREADS],
            count: 0,
        }
    }

    /// All the table rules.
    pub fn rules_hold(&self) -> bool {
        self.list_rules_hold() && self.threads.iter().all(|t| t.rules_hold(self.clock))
    }

    /// The rules of the arrival list: the first `count` entries are all
    /// different and are exactly the waiting threads, the others are empty.
    fn list_rules_hold(&self) -> bool {
        if self.count > THREADS as u64 {
            return false;
        }
        let (used, unused) = self.list.split_at(self.count as usize);
        let mut listed = [false; THREADS];
        for &entry in used {
            let number = entry as usize;
            if number >= THREADS || listed[number] {
                return false;
            }
            listed[number] = true;
        }
        unused.iter().all(|&entry| entry == NO_ENTRY)
            && (0..THREADS).all(|t| listed[t] == self.threads[t].waiting)
    }

    /// Puts a thread to sleep at the end of the arrival list. The deadline is
    /// none or above the clock; the last answer stays until this sleep ends, and
    /// the priority stays.
    pub fn join(&mut self, number: usize, uaddr: u32, bitset: u32, deadline: Option<u64>) {
        let Thread { last, priority, .. } = self.threads[number];
        self.threads[number] = Thread {
            waiting: true,
            uaddr,
            bitset,
            timed: deadline.is_some(),
            deadline: deadline.unwrap_or(0),
            last,
            priority,
        };
        self.list[self.count as usize] = number as u8;
        self.count += 1;
    }

    /// The arrival list of sound tables.
    pub(super) fn listed(&self) -> &[u8] {
        &self.list[..self.count as usize]
    }

    /// Ends the sleep of all listed threads that `chosen` picks, with the given
    /// last answer. Gives how many.
    pub(super) fn end_sleeps(&mut self, last: u8, chosen: impl Fn(usize, &Thread) -> bool) -> i32 {
        let mut ended = Row::EMPTY;
        for &entry in self.listed() {
            if chosen(entry as usize, &self.threads[entry as usize]) {
                ended.push(entry);
            }
        }
        self.unlist(&ended);
        self.let_run(&ended, last)
    }

    /// Takes threads off the list; all others keep their order.
    pub(super) fn unlist(&mut self, taken: &Row) {
        let mut left = Row::EMPTY;
        for &entry in self.listed() {
            if !taken.entries().contains(&entry) {
                left.push(entry);
            }
        }
        self.list = left.list;
        self.count = left.count as u64;
    }

    /// Ends the sleep of threads that have been taken off the list. Gives how many.
    pub(super) fn let_run(&mut self, taken: &Row, last: u8) -> i32 {
        for &entry in taken.entries() {
            self.threads[entry as usize].end(last);
        }
        taken.count as i32
    }

    /// Puts threads that have been taken off the list to sleep at another word, at
    /// the list's end in their order; all else in their records is kept. Gives how
    /// many.
    pub(super) fn put_last(&mut self, taken: &Row, address: u32) -> i32 {
        for &entry in taken.entries() {
            self.threads[entry as usize].uaddr = address;
            self.list[self.count as usize] = entry;
            self.count += 1;
        }
        taken.count as i32
    }
}
