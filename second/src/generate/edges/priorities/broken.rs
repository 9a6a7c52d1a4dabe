//! Tables where a priority is too high, for every kind of event, and the event
//! that sets one on tables that break any other rule and over memories of a wrong
//! length.

use super::set;
use crate::generate::edges::{each_kind_by, sleepers};
use crate::generate::tables;
use crate::model::{Event, WORDS};
use crate::script::{self, Record, Script, MEMORY};
use crate::shorthand::{self as s, Who};

const WHO: Who = (0, 7);

pub fn add(script: &mut Script) {
    too_high(script);
    widths(script);
    high_breaks(script);
    other_breaks(script);
    memories(script);
}

fn poke(script: &mut Script, number: u8, priority: u64) {
    script.add(Record::Poke { field: script::PRIORITY, index: number, value: priority });
}

/// Sets for a sleeper, for a thread that runs, and such as are faulty besides.
fn sets() -> [Event; 7] {
    [
        s::set_priority((0, 0), 31),
        s::set_priority(WHO, 0),
        s::set_priority((0, 0), 32),
        s::set_priority(WHO, 255),
        s::set_priority((8, 0), 31),
        s::set_priority((0, 8), 32),
        s::set_priority((255, 255), 255),
    ]
}

/// Every kind of event; then what they have left.
fn each(script: &mut Script) {
    script.events(&each_kind_by(WHO));
    script.events(&sets());
    script.dump();
}

/// One priority too high, of sleepers, of the caller and of a thread that never
/// has to do with the events, and then the highest that there is in its place.
fn too_high(script: &mut Script) {
    for number in [0, 8, 7, 63] {
        for priority in [32, 33, 64, 128, 255] {
            sleepers(script);
            poke(script, number, priority);
            each(script);
        }
        // Setting it again couldn't mend it.
        script.event(s::set_priority((number / 8, number % 8), 0));
        poke(script, number, 31);
        each(script);
    }
}

/// A poke is cut to a byte, and its place to a thread.
fn widths(script: &mut Script) {
    for priority in [256, 287, 288, 1 << 32, (1 << 63) + 31, u64::MAX - 1, u64::MAX] {
        sleepers(script);
        poke(script, 64 + 7, priority);
        poke(script, 128, priority);
        script.dump();
        script.events(&[s::wake(WHO, 8, 1), s::query(0)]);
    }
}

fn high_breaks(script: &mut Script) {
    for &breaks in tables::PRIORITY_BREAKS {
        let mut state = tables::base();
        for (number, thread) in state.threads.iter_mut().enumerate() {
            thread.priority = (number % 32) as u8;
        }
        if let Some(state) = tables::broken(state, breaks) {
            set(script, &state);
            each(script);
        }
    }
}

fn other_breaks(script: &mut Script) {
    let broken = tables::LIST_BREAKS.iter().chain(tables::RECORD_BREAKS);
    let broken = broken.filter_map(|&breaks| tables::broken(tables::base(), breaks));
    for state in broken.chain(tables::overfull(7)) {
        set(script, &state);
        script.events(&sets());
        // Broken twice is no better.
        poke(script, 7, 32);
        script.events(&sets());
        script.dump();
    }
    set(script, &tables::base());
    script.events(&sets());
    script.dump();
}

/// -6 comes first, also where the tables are broken. A panel query takes no words.
fn memories(script: &mut Script) {
    for length in [0, 1, WORDS / 2, WORDS - 1, WORDS, MEMORY] {
        sleepers(script);
        script.lend(length);
        script.events(&sets());
        poke(script, 0, 32);
        script.events(&sets());
        script.event(s::query(0));
        script.lend(WORDS);
        script.events(&sets());
        poke(script, 0, 30);
        script.events(&sets());
        script.dump();
    }
}
