//! The library's functions, as include/vradomil.h declares them.

use second::model::{Call, Event};

extern "C" {
    fn vradomil_fresh(tables: *mut u8, tables_len: usize) -> i32;
    fn vradomil_call(
        tables: *mut u8,
        tables_len: usize,
        words: *mut u8,
        words_len: usize,
        process: u8,
        index: u8,
        op: u32,
        uaddr: u32,
        val: u32,
        flag: u8,
        timeout: u64,
        uaddr2: u32,
        val3: u32,
    ) -> i32;
    fn vradomil_store(
        tables: *const u8,
        tables_len: usize,
        words: *mut u8,
        words_len: usize,
        process: u8,
        address: u32,
        value: u32,
    ) -> i32;
    fn vradomil_clock(
        tables: *mut u8,
        tables_len: usize,
        words: *const u8,
        words_len: usize,
        time: u64,
    ) -> i32;
    fn vradomil_interrupt(
        tables: *mut u8,
        tables_len: usize,
        words: *const u8,
        words_len: usize,
        process: u8,
        index: u8,
    ) -> i32;
    fn vradomil_set_priority(
        tables: *mut u8,
        tables_len: usize,
        words: *const u8,
        words_len: usize,
        process: u8,
        index: u8,
        priority: u8,
    ) -> i32;
    fn vradomil_query(tables: *const u8, tables_len: usize, process: u8) -> u32;
    fn vradomil_call_report(
        tables: *mut u8,
        tables_len: usize,
        words: *mut u8,
        words_len: usize,
        process: u8,
        index: u8,
        op: u32,
        uaddr: u32,
        val: u32,
        flag: u8,
        timeout: u64,
        uaddr2: u32,
        val3: u32,
        report: *mut u8,
        report_len: usize,
    ) -> i32;
    fn vradomil_store_report(
        tables: *const u8,
        tables_len: usize,
        words: *mut u8,
        words_len: usize,
        process: u8,
        address: u32,
        value: u32,
        report: *mut u8,
        report_len: usize,
    ) -> i32;
    fn vradomil_clock_report(
        tables: *mut u8,
        tables_len: usize,
        words: *const u8,
        words_len: usize,
        time: u64,
        report: *mut u8,
        report_len: usize,
    ) -> i32;
    fn vradomil_interrupt_report(
        tables: *mut u8,
        tables_len: usize,
        words: *const u8,
        words_len: usize,
        process: u8,
        index: u8,
        report: *mut u8,
        report_len: usize,
    ) -> i32;
    fn vradomil_set_priority_report(
        tables: *mut u8,
        tables_len: usize,
        words: *const u8,
        words_len: usize,
        process: u8,
        index: u8,
        priority: u8,
        report: *mut u8,
        report_len: usize,
    ) -> i32;
}

pub fn fresh(tables: &mut [u8]) -> i64 {
    // SAFETY (here and below): pointer and length are those of a slice.
    unsafe { vradomil_fresh(tables.as_mut_ptr(), tables.len()) as i64 }
}

/// One event by a function that answers a number alone.
pub fn step(tables: &mut [u8], words: &mut [u8], event: &Event) -> i64 {
    let (t, t_len) = (tables.as_mut_ptr(), tables.len());
    let (w, w_len) = (words.as_mut_ptr(), words.len());
    match *event {
        Event::Call(ref call) => run_call(tables, words, call),
        Event::Store { process, address, value } => unsafe {
            vradomil_store(t, t_len, w, w_len, process, address, value) as i64
        },
        Event::Clock { time } => unsafe { vradomil_clock(t, t_len, w, w_len, time) as i64 },
        Event::Interrupt { process, index } => unsafe {
            vradomil_interrupt(t, t_len, w, w_len, process, index) as i64
        },
        Event::SetPriority { process, index, priority } => unsafe {
            vradomil_set_priority(t, t_len, w, w_len, process, index, priority) as i64
        },
        Event::Query { process } => unsafe { vradomil_query(t, t_len, process) as i64 },
    }
}

/// One event by a function that also writes a report; a panel query has none.
pub fn step_report(tables: &mut [u8], words: &mut [u8], event: &Event, report: &mut [u8]) -> i64 {
    let (t, t_len) = (tables.as_mut_ptr(), tables.len());
    let (w, w_len) = (words.as_mut_ptr(), words.len());
    let (r, r_len) = (report.as_mut_ptr(), report.len());
    match *event {
        Event::Call(ref call) => run_call_report(tables, words, call, report),
        Event::Store { process, address, value } => unsafe {
            vradomil_store_report(t, t_len, w, w_len, process, address, value, r, r_len) as i64
        },
        Event::Clock { time } => unsafe {
            vradomil_clock_report(t, t_len, w, w_len, time, r, r_len) as i64
        },
        Event::Interrupt { process, index } => unsafe {
            vradomil_interrupt_report(t, t_len, w, w_len, process, index, r, r_len) as i64
        },
        Event::SetPriority { process, index, priority } => unsafe {
            vradomil_set_priority_report(t, t_len, w, w_len, process, index, priority, r, r_len)
                as i64
        },
        Event::Query { .. } => step(tables, words, event),
    }
}

fn run_call(tables: &mut [u8], words: &mut [u8], call: &Call) -> i64 {
    let answer = unsafe {
        vradomil_call(
            tables.as_mut_ptr(),
            tables.len(),
            words.as_mut_ptr(),
            words.len(),
            call.process,
            call.index,
            call.op,
            call.uaddr,
            call.val,
            call.flag,
            call.timeout,
            call.uaddr2,
            call.val3,
        )
    };
    answer as i64
}

fn run_call_report(tables: &mut [u8], words: &mut [u8], call: &Call, report: &mut [u8]) -> i64 {
    let answer = unsafe {
        vradomil_call_report(
            tables.as_mut_ptr(),
            tables.len(),
            words.as_mut_ptr(),
            words.len(),
            call.process,
            call.index,
            call.op,
            call.uaddr,
            call.val,
            call.flag,
            call.timeout,
            call.uaddr2,
            call.val3,
            report.as_mut_ptr(),
            report.len(),
        )
    };
    answer as i64
}
