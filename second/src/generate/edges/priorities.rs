//! The priorities of request (vi) of document 02: every answer of the event that
//! sets them, what they are kept through, and tables where one is too high.

mod answers;
mod broken;
mod kept;

use super::{refusals, set};
use crate::script::Script;

pub fn add(script: &mut Script) {
    answers::add(script);
    refusals::add_priorities(script);
    kept::add(script);
    broken::add(script);
}
