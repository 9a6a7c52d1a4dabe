//! The last thread awake goes to sleep as the 64th, by each form of wait.

use super::{fill, WHO};
use crate::model::{Call, Event, PRIVATE_BIT, WAIT, WAIT_BITSET};
use crate::script::Script;
use crate::shorthand as s;

/// Each sleep is interrupted, so that the next form finds 63 again.
pub fn add(script: &mut Script) {
    fill(script);
    // No deadline has come yet, and relative and absolute times differ.
    script.events(&[s::clock(1000), s::store(0, 4092, u32::MAX)]);
    for form in forms() {
        script.event(form);
        script.dump();
        // Now the caller is waiting.
        script.events(&[form, s::query(0), s::interrupt(WHO)]);
    }
}

/// The forms of wait, with edge times and edge masks.
fn forms() -> Vec<Event> {
    let call = Call { index: WHO.1, uaddr: 12, ..Call::default() };
    let private_wait = Call { op: WAIT | PRIVATE_BIT, flag: 255, timeout: 2, uaddr2: 3, ..call };
    // Without its flag a time that has come is no fault.
    let private_bitset = Call { op: WAIT_BITSET | PRIVATE_BIT, val3: 6, timeout: 1000, ..call };
    vec![
        s::wait(WHO, 8, 0),
        s::wait(WHO, 4092, u32::MAX),
        s::wait_for(WHO, 8, 0, 1),
        s::wait_for(WHO, 4092, u32::MAX, u64::MAX),
        s::wait_bitset(WHO, 8, 0, 1),
        s::wait_bitset(WHO, 4092, u32::MAX, u32::MAX),
        s::wait_until(WHO, 8, 0, 1 << 31, 1001),
        s::wait_until(WHO, 4092, u32::MAX, 1, u64::MAX),
        Event::Call(private_wait),
        Event::Call(private_bitset),
    ]
}
