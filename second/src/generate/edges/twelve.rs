//! P1 to P12 of document 01, P8 as request (ii) of document 02 amends it.

use crate::model::{Call, Event};
use crate::script::Script;
use crate::shorthand as s;

pub fn add(script: &mut Script) {
    waits(script);
    caps_and_masks(script);
    requeues(script);
    operations(script);
    deadlines(script);
    option_bits(script);
}

/// P1 to P3.
fn waits(script: &mut Script) {
    script.fresh();
    script.events(&[s::store(0, 8, 5), s::wait((0, 0), 8, 5)]);
    script.dump();
    script.event(s::wait((0, 1), 8, 4));
    script.dump();
    script.events(&[s::store(7, 4092, 9), s::wait((7, 7), 4092, 9)]);
    script.dump();
    script.word(7, 4092);
    for address in [4094, 4096, 4097] {
        script.event(s::wait((2, 0), address, 0));
        script.dump();
    }
}

/// P4 and P5.
fn caps_and_masks(script: &mut Script) {
    for asleep in [false, true] {
        script.fresh();
        if asleep {
            script.event(s::wait((0, 1), 8, 0));
        }
        script.events(&[s::wake((0, 0), 8, 0), s::wake((0, 0), 8, 2147483648)]);
        script.dump();
    }
    script.fresh();
    for mask in 1..=3 {
        script.event(s::wait_bitset((0, mask as u8), 8, 0, mask));
    }
    script.dump();
    script.event(s::wake_bitset((0, 0), 8, 1, 2));
    script.dump();
    script.event(s::query(0));
}

/// P6 and P7.
fn requeues(script: &mut Script) {
    let calls = [s::cmp_requeue((0, 7), 8, 16, (1, 1), 0), s::requeue((0, 7), 8, 16, 1, 1)];
    for call in calls {
        script.fresh();
        for index in [4, 2, 5] {
            script.event(s::wait((0, index), 8, 0));
        }
        script.event(call);
        script.dump();
        script.events(&[s::wake((0, 7), 8, 9), s::wake((0, 7), 16, 9)]);
        script.dump();
    }
}

/// P8 and P9: sleepers at both words show which releases took place. P8 takes
/// none at the second word, P9 one at each.
fn operations(script: &mut Script) {
    for (old, val3) in [(u32::MAX, 0x1400_1000), (3, 0xB002_1003)] {
        script.fresh();
        script.events(&[
            s::store(0, 4, old),
            s::wait((0, 1), 4, old),
            s::wait((0, 2), 8, 0),
            s::wait((0, 3), 4, old),
            s::wake_op((0, 0), 8, 4, (1, 1), val3),
        ]);
        script.word(0, 4);
        script.word(0, 8);
        script.dump();
    }
}

/// P10 and P11.
fn deadlines(script: &mut Script) {
    script.fresh();
    script.events(&[s::clock(5), s::wait_for((0, 0), 8, 0, 10)]);
    script.dump();
    for time in [14, 15, 14, 15] {
        script.event(s::clock(time));
        script.dump();
    }
    script.events(&[s::wait_for((0, 1), 8, 0, 0), s::wait_for((0, 1), 8, 1, 0)]);
    script.dump();
}

/// P12.
fn option_bits(script: &mut Script) {
    for op in [128, 256, 2, 512, 0] {
        script.fresh();
        script.event(Event::Call(Call { op, uaddr: 8, ..Call::default() }));
        script.dump();
    }
}
