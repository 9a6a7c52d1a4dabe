//! Both sides of each limit: what is good next to what is just not.

use super::{good, on_sleepers, show, sleepers, ADDRESSES};
use crate::generate::events::COMMANDS;
use crate::model::{
    Call, Event, CMP_REQUEUE, REQUEUE, WAIT, WAIT_BITSET, WAKE, WAKE_BITSET, WAKE_OP,
};
use crate::script::Script;
use crate::shorthand as s;

pub fn add(script: &mut Script) {
    caps(script);
    second_caps(script);
    masks(script);
    addresses(script);
}

fn caps(script: &mut Script) {
    for op in [WAKE, WAKE_BITSET, REQUEUE, CMP_REQUEUE, WAKE_OP] {
        let with = |val| Call { val, ..good(op) };
        on_sleepers(script, [2147483648, 2147483649, u32::MAX].map(with));
        on_sleepers(script, [with(2147483647)]);
    }
}

/// The second cap is the timeout's low half; high half and flag don't matter.
fn second_caps(script: &mut Script) {
    for op in [REQUEUE, CMP_REQUEUE, WAKE_OP] {
        for high in [0, 1 << 32, 1 << 63, u64::MAX << 32] {
            let with = |low: u64, flag| Call { val: 1, timeout: high + low, flag, ..good(op) };
            let bad = [1 << 31, (1 << 31) + 1, (1 << 32) - 1];
            on_sleepers(script, bad.into_iter().flat_map(|low| [with(low, 0), with(low, 1)]));
            on_sleepers(script, [with((1 << 31) - 1, 0)]);
            on_sleepers(script, [with((1 << 31) - 1, 1)]);
        }
    }
}

fn masks(script: &mut Script) {
    for op in [WAIT_BITSET, WAKE_BITSET] {
        for val3 in [0, 1, 1 << 31, u32::MAX] {
            on_sleepers(script, [Call { val3, ..good(op) }]);
        }
    }
}

/// Every address with every other, for the commands that use one as well. A
/// wait may sleep; the interrupt makes its caller run again.
fn addresses(script: &mut Script) {
    for &op in COMMANDS {
        sleepers(script);
        for &uaddr in ADDRESSES {
            for &uaddr2 in ADDRESSES {
                script.event(Event::Call(Call { uaddr, uaddr2, ..good(op) }));
                if op == WAIT || op == WAIT_BITSET {
                    script.event(s::interrupt((0, 7)));
                }
            }
        }
        show(script);
    }
}
