//! WAKE at a word with one to eight sleepers. Their priorities are laid down, or set
//! before they sleep, or while they do.

use super::{join, patterns, set, ALL, COMERS, WHO};
use crate::model::State;
use crate::script::Script;
use crate::shorthand as s;

pub fn add(script: &mut Script) {
    for count in 1..=7 {
        for row in patterns(count) {
            laid_down(script, &row);
            set_before(script, &row);
            set_asleep(script, &row);
        }
    }
    for row in patterns(8) {
        all_eight(script, &row);
        all_timed(script, &row);
    }
}

/// Each cap on the same tables.
fn laid_down(script: &mut Script, row: &[u8]) {
    let mut state = State::fresh();
    join(&mut state, 8, row);
    for cap in [0, 1, 2, ALL] {
        set(script, &state);
        script.event(s::wake(WHO, 8, cap));
        script.dump();
    }
}

fn give(script: &mut Script, row: &[u8]) {
    for (&index, &priority) in COMERS.iter().zip(row) {
        script.event(s::set_priority((0, index), priority));
    }
}

fn sleep(script: &mut Script, count: usize) {
    for &index in &COMERS[..count] {
        script.event(s::wait((0, index), 8, 0));
    }
}

/// One cap after another.
fn wakes(script: &mut Script, who: (u8, u8)) {
    for cap in [0, 1, 2, ALL] {
        script.event(s::wake(who, 8, cap));
        script.dump();
    }
}

fn set_before(script: &mut Script, row: &[u8]) {
    script.fresh();
    give(script, row);
    sleep(script, row.len());
    wakes(script, WHO);
}

/// They fell asleep with the priorities of those behind them.
fn set_asleep(script: &mut Script, row: &[u8]) {
    script.fresh();
    let mut turned = row.to_vec();
    turned.rotate_left(1);
    give(script, &turned);
    sleep(script, row.len());
    give(script, row);
    wakes(script, WHO);
}

/// Where all sleep nobody of the process can call, and nobody else can reach them,
/// until an interrupt lets one run.
fn all_eight(script: &mut Script, row: &[u8]) {
    let mut state = State::fresh();
    join(&mut state, 8, row);
    set(script, &state);
    for index in 0..8 {
        script.event(s::wake((0, index), 8, 1));
    }
    script.event(s::wake((1, 0), 8, ALL));
    script.dump();
    script.event(s::interrupt((0, COMERS[2])));
    wakes(script, (0, COMERS[2]));
}

/// The same by the clock: every second one has a deadline.
fn all_timed(script: &mut Script, row: &[u8]) {
    let mut state = State::fresh();
    join(&mut state, 8, row);
    set(script, &state);
    script.event(s::clock(103));
    wakes(script, (0, 1));
}
