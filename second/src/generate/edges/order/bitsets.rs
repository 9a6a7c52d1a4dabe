//! WAKE_BITSET: by priority among those whose mask matches. Who doesn't match is
//! passed over, however high, and counts against no cap.

use super::{join, patterns, set, ALL, COMERS, WHO};
use crate::model::State;
use crate::script::Script;
use crate::shorthand as s;

/// The masks of seven sleepers in the order in which they come.
const MASKS: [[u32; 7]; 2] = [[1, 2, 3, 4, 6, 1 << 31, 2], [2, u32::MAX, 1, 2, 4, 3, 1]];
/// Masks that match many, few and nobody.
const ASKED: [u32; 4] = [2, 5, 1 << 31, 8];

pub fn add(script: &mut Script) {
    for row in patterns(7) {
        for masks in MASKS {
            let state = masked(&row, masks);
            for (asked, cap) in ASKED.into_iter().flat_map(|mask| [0, 1, 2, ALL].map(|c| (mask, c)))
            {
                set(script, &state);
                script.event(s::wake_bitset(WHO, 8, cap, asked));
                script.dump();
            }
            one_by_one(script, &state);
        }
    }
}

fn masked(row: &[u8], masks: [u32; 7]) -> State {
    let mut state = State::fresh();
    join(&mut state, 8, row);
    for (index, mask) in COMERS.into_iter().zip(masks) {
        state.threads[index as usize].bitset = mask;
    }
    state
}

/// One mask after another takes one each, then a plain wake the rest.
fn one_by_one(script: &mut Script, state: &State) {
    set(script, state);
    for asked in [2, 1, 2, 4, 2] {
        script.event(s::wake_bitset(WHO, 8, 1, asked));
        script.dump();
    }
    script.event(s::wake(WHO, 8, 1));
    script.dump();
}
