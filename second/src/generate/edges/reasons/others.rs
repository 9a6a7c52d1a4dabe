//! Reasons of stores and clock events; interrupts and queries have none.

use super::{all_faulty, show, sleepers, ADDRESSES};
use crate::model::Event;
use crate::script::Script;
use crate::shorthand as s;

pub fn add(script: &mut Script) {
    stores(script);
    clocks(script);
    last_clock(script);
    interrupts_and_queries(script);
}

fn stores(script: &mut Script) {
    sleepers(script);
    for process in [0, 7, 8, 255] {
        for address in ADDRESSES.iter().copied().chain([0, 4092, u32::MAX - 3, u32::MAX]) {
            script.event(s::store(process, address, 3));
            script.word(process, address);
        }
    }
    show(script);
}

/// Before, at and after the clock.
fn clocks(script: &mut Script) {
    for clock in [1, 2, 999, 1000, 2000, 1 << 31, 1 << 32, 1 << 63, u64::MAX - 1] {
        sleepers(script);
        script.events(&[s::clock(clock), s::clock(clock - 1), s::clock(0), s::clock(clock)]);
        script.dump();
        script.events(&[s::clock(clock / 2), s::clock(clock + 1), s::clock(clock)]);
        script.dump();
    }
}

/// At the last time every other time is back; calls have their reasons as ever.
fn last_clock(script: &mut Script) {
    sleepers(script);
    script.event(s::clock(u64::MAX));
    for time in [0, 1, 1 << 32, 1 << 63, u64::MAX - 1, u64::MAX] {
        script.event(s::clock(time));
    }
    for call in all_faulty() {
        script.events(&[Event::Call(call), s::clock(u64::MAX - 1)]);
    }
    show(script);
}

/// After a refusal that had a reason, too.
fn interrupts_and_queries(script: &mut Script) {
    sleepers(script);
    script.event(s::clock(5));
    let refused = [s::wake((0, 7), 9, 1), s::store(0, 9, 1), s::clock(4), s::wait((0, 7), 9, 0)];
    for number in [0, 1, 3, 7, 8, 9, 255] {
        for event in refused {
            script.events(&[event, s::query(number)]);
            script.events(&[event, s::interrupt((1, number)), event, s::interrupt((number, 0))]);
        }
    }
    show(script);
}
