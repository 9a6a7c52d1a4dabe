//! The slips that document 01 has seen, and a few of their neighbours.

use super::sleepers;
use crate::script::Script;
use crate::shorthand as s;

pub fn add(script: &mut Script) {
    joined_too_early(script);
    passed_over(script);
    lost_deadline(script);
    released_or_sum(script);
    word_left_changed(script);
    requeue_to_the_end(script);
    last_answers(script);
}

/// After -11 and -110 the caller runs and is on no list.
fn joined_too_early(script: &mut Script) {
    sleepers(script);
    script.events(&[s::wait((0, 6), 8, 1), s::wait_for((0, 6), 8, 0, 0)]);
    script.dump();
    script.events(&[s::wake((0, 7), 8, 9), s::query(0), s::wait((0, 6), 8, 0)]);
    script.dump();
}

/// A sleeper that is passed over doesn't count against a BITSET cap.
fn passed_over(script: &mut Script) {
    for cap in 0..5 {
        script.fresh();
        for (index, mask) in [1, 2, 4, 2, 3, 8, 2].into_iter().enumerate() {
            script.event(s::wait_bitset((0, index as u8), 8, 0, mask));
        }
        script.event(s::wake_bitset((0, 7), 8, cap, 2));
        script.dump();
        script.event(s::wake((0, 7), 8, cap));
        script.dump();
    }
}

/// A moved sleeper keeps its mask and its deadline.
fn lost_deadline(script: &mut Script) {
    script.fresh();
    script.events(&[
        s::wait_until((0, 0), 8, 0, 5, 20),
        s::wait_for((0, 1), 8, 0, 30),
        s::wait((0, 2), 16, 0),
        s::requeue((0, 7), 8, 16, 0, 9),
    ]);
    script.dump();
    script.events(&[s::wake_bitset((0, 7), 16, 1, 2), s::clock(20)]);
    script.dump();
    script.event(s::clock(30));
    script.dump();
}

/// Each pair of caps by CMP_REQUEUE (the sum) and REQUEUE (the released).
fn released_or_sum(script: &mut Script) {
    for cap in 0..5 {
        for second_cap in 0..5 {
            sleepers(script);
            script.event(s::cmp_requeue((0, 7), 8, 16, (cap, second_cap), 0));
            script.dump();
            sleepers(script);
            script.event(s::requeue((0, 7), 8, 16, cap, second_cap));
            script.dump();
        }
    }
}

/// A refused WAKE_OP leaves the second word as it was.
fn word_left_changed(script: &mut Script) {
    sleepers(script);
    script.event(s::store(0, 16, 9));
    let caps = (1, 1);
    for val3 in [0x5000_1000, 0x1600_1000, 0xd000_1000, 0x1f00_1000] {
        script.event(s::wake_op((0, 7), 8, 16, caps, val3));
        script.word(0, 16);
    }
    let good = 0x1000_1000;
    script.events(&[
        s::wake_op((0, 7), 8, 16, (1 << 31, 1), good),
        s::wake_op((0, 7), 8, 16, (1, 1 << 31), good),
        s::wake_op((0, 7), 4096, 16, caps, good),
        s::wake_op((0, 7), 9, 16, caps, good),
        s::wake_op((0, 0), 8, 16, caps, good),
        s::wake_op((0, 8), 8, 16, caps, good),
    ]);
    script.word(0, 16);
    script.dump();
}

/// Moved sleepers come after all that were there, and move back likewise.
fn requeue_to_the_end(script: &mut Script) {
    sleepers(script);
    script.event(s::wait((2, 2), 16, 0));
    for (from, to) in [(8, 16), (16, 8), (8, 16), (16, 20)] {
        script.event(s::requeue((0, 7), from, to, 0, 2));
        script.dump();
    }
    script.event(s::wake((0, 7), 16, 1));
    script.dump();
}

/// Each way to end a sleep leaves its own last answer, and a new sleep keeps
/// it until that sleep ends.
fn last_answers(script: &mut Script) {
    script.fresh();
    let ends = [s::wake((0, 7), 8, 1), s::interrupt((0, 0)), s::clock(10), s::wake((0, 7), 8, 1)];
    for end in ends {
        script.event(s::wait_until((0, 0), 8, 0, 1, 10));
        script.event(s::wait((0, 0), 8, 0));
        script.dump();
        script.event(end);
        script.dump();
        script.event(s::interrupt((0, 0)));
    }
}
