//! The edge script: the twelve cases of document 01, its edge numbers, every
//! refusal and the order between them, the slips it names, and the reasons, the
//! signed WAKE_OP, the full list, the priorities and the order of taking of
//! document 02.

mod arguments;
mod broken;
mod full;
mod operations;
mod order;
mod priorities;
mod reasons;
mod refusals;
mod slips;
mod times;
mod twelve;

use super::tables;
use crate::model::{Event, State};
use crate::script::Script;
use crate::shorthand::{self as s, Who};

/// The whole script.
pub fn script() -> Vec<u8> {
    let mut script = Script::default();
    twelve::add(&mut script);
    arguments::add(&mut script);
    times::add(&mut script);
    operations::add(&mut script);
    refusals::add(&mut script, 2);
    broken::add(&mut script);
    full::add(&mut script);
    slips::add(&mut script);
    reasons::add(&mut script);
    priorities::add(&mut script);
    order::add(&mut script);
    script.bytes
}

/// The refusals with every set of faults.
pub fn faults() -> Vec<u8> {
    let mut script = Script::default();
    refusals::add(&mut script, u32::MAX);
    refusals::add_priorities(&mut script);
    script.bytes
}

/// One event of every kind and command, each good on tables where process 0
/// has word 0 at 8 and 16 and its thread 7 runs.
fn one_of_each() -> Vec<Event> {
    let who = (0, 7);
    vec![
        s::wake(who, 8, 1),
        s::wake_bitset(who, 8, 1, 2),
        s::requeue(who, 8, 16, 1, 1),
        s::cmp_requeue(who, 8, 16, (1, 1), 0),
        s::wake_op(who, 8, 16, (1, 1), 0x1000_1000),
        s::store(0, 8, 5),
        s::interrupt((0, 1)),
        s::query(0),
        s::query(1),
        s::query(7),
        s::query(8),
        s::clock(u64::MAX),
        s::wait(who, 8, 0),
        s::wait_until((0, 6), 8, 0, 1, u64::MAX),
    ]
}

/// Every form of wait and every other command by one caller, and every other
/// kind of event: each good on tables where that thread runs and its process
/// has word 0 at 8 and 12.
pub fn each_by(who: Who) -> Vec<Event> {
    vec![
        s::wait(who, 8, 0),
        s::wait_for(who, 8, 0, 1),
        s::wait_bitset(who, 8, 0, 1),
        s::wait_until(who, 8, 0, 1, u64::MAX),
        s::wake(who, 8, 1),
        s::wake_bitset(who, 8, 1, 1),
        s::requeue(who, 8, 12, 1, 1),
        s::cmp_requeue(who, 8, 12, (1, 1), 0),
        s::wake_op(who, 8, 12, (1, 1), 0x1000_1000),
        s::store(who.0, 8, 5),
        s::clock(u64::MAX),
        s::interrupt(who),
        s::interrupt((7 - who.0, who.1)),
        s::query(who.0),
        s::query(7 - who.0),
        s::query(8),
    ]
}

/// The same, and a priority for the caller and for a thread of another process.
pub fn each_kind_by(who: Who) -> Vec<Event> {
    let mut events = each_by(who);
    events.extend([s::set_priority(who, 31), s::set_priority((7 - who.0, who.1), 1)]);
    events
}

/// Lays these tables down.
fn set(script: &mut Script, state: &State) {
    for record in tables::pokes(state) {
        script.add(record);
    }
}

/// Three sleepers at 8 and one at 16 in process 0, and one at 8 in process 1,
/// that no call of process 0 may touch.
fn sleepers(script: &mut Script) {
    script.fresh();
    script.events(&their_waits());
}

/// How these go to sleep.
fn their_waits() -> [Event; 5] {
    [
        s::wait((0, 0), 8, 0),
        s::wait((1, 0), 8, 0),
        s::wait((0, 1), 16, 0),
        s::wait_until((0, 2), 8, 0, 6, 1000),
        s::wait_for((0, 3), 8, 0, 2000),
    ]
}
