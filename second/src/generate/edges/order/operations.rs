//! WAKE_OP: both of its releases go by priority, at two words and at one.

use super::{at_two, patterns, set, Caps, ALL, CAPS, FALSE, TRUE, WHO};
use crate::script::Script;
use crate::shorthand as s;

pub fn add(script: &mut Script) {
    for row in patterns(7) {
        let (here, there) = row.split_at(4);
        for caps in CAPS.into_iter().chain([(ALL, ALL as u64)]) {
            two_words(script, here, there, caps);
        }
        for caps in CAPS {
            one_word(script, &row[..5], caps);
        }
        // Back from the second word to the first.
        set(script, &at_two(here, there));
        script.event(s::wake_op(WHO, 16, 8, (1, 1), TRUE));
        script.dump();
        script.word(0, 8);
    }
}

fn two_words(script: &mut Script, here: &[u8], there: &[u8], caps: Caps) {
    for val3 in [TRUE, FALSE] {
        set(script, &at_two(here, there));
        script.event(s::wake_op(WHO, 8, 16, caps, val3));
        script.dump();
    }
}

/// The second release goes on where the first ended.
fn one_word(script: &mut Script, row: &[u8], caps: Caps) {
    for val3 in [TRUE, FALSE] {
        set(script, &at_two(row, &[31]));
        script.event(s::wake_op(WHO, 8, 8, caps, val3));
        script.dump();
    }
}
