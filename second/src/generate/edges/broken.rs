//! Each table rule broken in turn, and memories of a wrong length.

use super::{one_of_each, sleepers};
use crate::generate::tables;
use crate::model::WORDS;
use crate::script::{Script, MEMORY};

pub fn add(script: &mut Script) {
    broken_tables(script);
    // The same events on the same tables unbroken.
    for record in tables::pokes(&tables::base()) {
        script.add(record);
    }
    show_each(script);
    for length in [0, 1, WORDS / 2, WORDS - 1, WORDS, MEMORY] {
        sleepers(script);
        script.lend(length);
        show_each(script);
        script.lend(WORDS);
        show_each(script);
        script.word(8, 0);
    }
}

fn broken_tables(script: &mut Script) {
    for &breaks in tables::LIST_BREAKS.iter().chain(tables::RECORD_BREAKS) {
        let Some(state) = tables::broken(tables::base(), breaks) else {
            continue;
        };
        for record in tables::pokes(&state) {
            script.add(record);
        }
        script.dump();
        show_each(script);
    }
}

/// Every kind of event once, then all that could have changed.
fn show_each(script: &mut Script) {
    script.events(&one_of_each());
    script.dump();
    script.word(0, 8);
    script.word(0, 16);
}
