//! A full list: all but one thread asleep, over all processes, or all of them,
//! and tables that say so falsely. Here -12 would come, if anywhere.

mod again;
mod damaged;
mod last;
mod refused;

use crate::generate::tables;
use crate::model::{Event, THREADS};
use crate::script::Script;
use crate::shorthand::{self as s, Who};

/// The thread that stays awake is thread 5, (0, 5).
const AWAKE: usize = 5;
const WHO: Who = (0, AWAKE as u8);

pub fn add(script: &mut Script) {
    one_event(script);
    all_asleep(script);
    last::add(script);
    refused::add(script);
    again::add(script);
    damaged::add(script);
}

/// One event while 63 sleep, then the last thread waits.
fn one_event(script: &mut Script) {
    let calls = [
        s::wake(WHO, 8, 2147483647),
        s::wake_bitset(WHO, 8, 2147483647, 2),
        s::requeue(WHO, 8, 12, 2, 2147483647),
        s::cmp_requeue(WHO, 8, 12, (0, 2), 0),
        s::wake_op(WHO, 8, 12, (2147483647, 2147483647), 0x1000_1000),
        s::clock(1000),
        s::clock(1030),
        s::clock(u64::MAX),
        s::interrupt((7, 7)),
        s::interrupt((0, 0)),
        s::store(3, 8, 1),
    ];
    for call in calls {
        fill(script);
        script.event(call);
        script.dump();
        script.event(s::wait(WHO, 0, 0));
        script.dump();
        queries(script);
    }
}

/// Threads go to sleep in a mixed order, at two words, with and without
/// deadlines and masks.
fn fill(script: &mut Script) {
    script.fresh();
    for number in tables::mixed().filter(|&number| number != AWAKE) {
        script.event(sleep(number));
    }
}

fn sleep(number: usize) -> Event {
    let who = (number as u8 / 8, number as u8 % 8);
    let address = if number % 3 == 0 { 12 } else { 8 };
    match number % 4 {
        0 => s::wait(who, address, 0),
        1 => s::wait_bitset(who, address, 0, 1 + number as u32 % 3),
        2 => s::wait_for(who, address, 0, 1000 + number as u64),
        _ => s::wait_until(who, address, 0, u32::MAX - 1, 1001),
    }
}

fn queries(script: &mut Script) {
    for process in 0..=9 {
        script.event(s::query(process));
    }
}

/// All 64 asleep: every caller is waiting, and only the clock and interrupts
/// can end a sleep. Then they all wait again in another order.
fn all_asleep(script: &mut Script) {
    fill(script);
    script.event(s::wait(WHO, 8, 0));
    script.dump();
    queries(script);
    for number in 0..THREADS as u8 {
        script.event(s::wait((number / 8, number % 8), 8, 0));
        script.event(s::wake((number / 8, number % 8), 8, 1));
    }
    script.event(s::clock(1001));
    script.dump();
    for number in (0..THREADS as u8).rev() {
        script.event(s::interrupt((number / 8, number % 8)));
    }
    script.dump();
    for number in (0..THREADS as u8).rev() {
        script.event(s::wait((number / 8, number % 8), 8, 0));
    }
    script.dump();
    queries(script);
}
