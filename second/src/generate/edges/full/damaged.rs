//! Tables whose list says 64 or more although the caller runs. They break a
//! table rule, so that is the answer, and it stands far before -12.

use super::{AWAKE, WHO};
use crate::generate::edges::each_by;
use crate::generate::tables;
use crate::model::State;
use crate::script::Script;
use crate::shorthand as s;

pub fn add(script: &mut Script) {
    for state in tables::overfull(AWAKE) {
        make(script, &state);
        script.events(&each_by(WHO));
        // Waits that the rows next to -12, and the first rows, would refuse.
        script.events(&[s::wait_for(WHO, 8, 0, 0), s::wait(WHO, 8, 1)]);
        script.events(&[s::wait((0, 0), 8, 0), s::wait((0, 8), 8, 0)]);
        script.dump();
        script.word(0, 8);
        script.word(0, 12);
    }
    // Each event alone on the tables undamaged, where nothing refuses it.
    for event in each_by(WHO) {
        make(script, &tables::nearly_full(AWAKE));
        script.event(event);
    }
}

fn make(script: &mut Script, state: &State) {
    for record in tables::pokes(state) {
        script.add(record);
    }
}
