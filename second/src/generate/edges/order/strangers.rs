//! Threads of other processes that sleep at the same address, before, between and
//! behind those of a call: they outrank nobody there and lose no place.

use super::{set, COMERS};
use crate::model::State;
use crate::script::Script;
use crate::shorthand as s;

const PROCESSES: [u8; 3] = [0, 1, 7];
/// The priority of a process's sleeper by its place among the four: that of the
/// others is as high or higher, or lower, or all are mixed.
const RANKS: &[fn(u8, u8) -> u8] = &[
    |process, place| if process == 1 { place } else { 31 },
    |process, place| if process == 1 { 28 + place } else { 0 },
    |process, place| (process * 11 + place * 17) % 32,
    |process, place| [31, 0, 30, 31][(process as usize + place as usize) % 4],
    |_, _| 12,
];

pub fn add(script: &mut Script) {
    for rank in RANKS {
        in_turns(script, &interleaved(*rank));
        moves(script, &interleaved(*rank));
    }
}

/// Four sleepers of each process at 8, one process after another.
fn interleaved(rank: fn(u8, u8) -> u8) -> State {
    let mut state = State::fresh();
    for (place, index) in (0..4).zip(COMERS) {
        for process in PROCESSES {
            let number = 8 * process as usize + index as usize;
            state.join(number, 8, u32::MAX, None);
            state.threads[number].priority = rank(process, place);
        }
    }
    state
}

/// One wake of each process after the other, until nobody is left.
fn in_turns(script: &mut Script, state: &State) {
    set(script, state);
    for cap in [1, 2, 1] {
        for process in [1, 0, 7, 2] {
            script.event(s::wake((process, 7), 8, cap));
            script.dump();
        }
    }
}

/// Requeues put those of one process behind all others, who keep their order.
fn moves(script: &mut Script, state: &State) {
    set(script, state);
    for process in [7, 1, 0] {
        script.event(s::requeue((process, 7), 8, 16, 1, 2));
        script.dump();
    }
    script.event(s::set_priority((1, COMERS[3]), 31));
    for process in PROCESSES {
        script.event(s::wake_op((process, 7), 8, 16, (1, 1), 0));
        script.dump();
    }
}
