//! WAKE_OP: every operation and comparison over edge words and operands, by
//! document 01 and by request (ii) of document 02.

use crate::script::Script;
use crate::shorthand as s;

pub fn add(script: &mut Script) {
    for op in 0..16u32 {
        for cmp in 0..16u32 {
            let code = op << 28 | cmp << 24;
            for (old, args) in [(0, 0), (3, 0x002_003), (u32::MAX, 0xfff_fff), (4, 0x021_003)] {
                one(script, old, code | args);
            }
        }
    }
    for old in [2, 3, 4, 4094, 4095, 4096, 1 << 31, u32::MAX] {
        for cmp in 0..6 {
            one(script, old, cmp << 24 | 3);
            one(script, old, cmp << 24 | 4095);
        }
    }
    for oparg in [0, 1, 2, 31, 32, 33, 63, 64, 2047, 2048, 4095] {
        for op in defined() {
            one(script, 0xa5a5_a5a5, op << 28 | oparg << 12);
        }
    }
    equal_addresses(script);
    both_caps(script);
    signed_cases(script);
    neighbours(script);
    negative_operands(script);
    undefined(script);
    equal_and_negative(script);
}

/// The operations that are defined.
fn defined() -> impl Iterator<Item = u32> {
    (0..5).chain(8..13)
}

/// One sleeper at each word: 1 or 2 says how the comparison went.
fn one(script: &mut Script, old: u32, val3: u32) {
    script.fresh();
    script.events(&[
        s::wait((0, 1), 8, 0),
        s::wait((0, 2), 4, 0),
        s::store(0, 4, old),
        s::wake_op((0, 0), 8, 4, (1, 1), val3),
    ]);
    script.word(0, 4);
    script.word(0, 8);
    script.word(1, 4);
}

/// The same with fewer lines, where many cases are alike: a sleeper at the
/// second word only, so 0 or 1 says how the comparison went.
fn brief(script: &mut Script, old: u32, val3: u32) {
    script.fresh();
    script.events(&[
        s::wait((0, 1), 4, 0),
        s::store(0, 4, old),
        s::wake_op((0, 0), 8, 4, (1, 1), val3),
    ]);
    script.word(0, 4);
}

/// The same word twice: the second release takes those still asleep.
fn equal_addresses(script: &mut Script) {
    for (cap, second_cap) in [(0, 0), (1, 0), (0, 1), (1, 1), (2, 1), (1, 2), (3, 3), (9, 9)] {
        for val3 in [0x1000_1000, 0x1100_1000] {
            script.fresh();
            for index in [3, 1, 2] {
                script.event(s::wait((0, index), 4, 0));
            }
            script.event(s::wake_op((0, 0), 4, 4, (cap, second_cap), val3));
            script.word(0, 4);
            script.dump();
        }
    }
}

/// Caps that end inside each of the two queues, which lie mixed on the list.
fn both_caps(script: &mut Script) {
    for cap in 0..5 {
        for second_cap in 0..4 {
            script.fresh();
            for (index, address) in [8, 4, 8, 4, 8, 4].into_iter().enumerate() {
                script.event(s::wait((0, index as u8), address, 0));
            }
            script.event(s::wake_op((0, 7), 8, 4, (cap, second_cap), 0));
            script.dump();
        }
    }
}

/// The cases that request (ii) names, with every operation and comparison. Its
/// old words are the highest and the lowest number.
fn signed_cases(script: &mut Script) {
    let arguments = [-2048, -1, 0, 2047];
    for op in defined() {
        for cmp in 0..6 {
            for oparg in arguments {
                for cmparg in arguments {
                    for old in [2147483647, 2147483648] {
                        brief(script, old, s::val3(op, cmp, oparg, cmparg));
                    }
                }
            }
        }
    }
}

/// Old words on both sides of cmparg, and 4095, which has the bits of -1 in its
/// last twelve. Adding 1 makes the new word another: the old one is compared.
fn neighbours(script: &mut Script) {
    for cmp in 0..6 {
        for cmparg in [-2048, -2047, -1, 0, 1, 2046, 2047] {
            let near = [-2049, -2048, -2047, -2, -1, 0, 1, 2046, 2047, 2048, 4095];
            let far = [i32::MIN, i32::MIN + 1, i32::MAX - 1, i32::MAX];
            for old in near.into_iter().chain(far) {
                brief(script, old as u32, s::val3(1, cmp, 1, cmparg));
            }
        }
    }
}

/// Operands below 0 and the highest, as numbers and as powers of two, over words
/// of both signs; comparison 5 with 0 tells the sign.
fn negative_operands(script: &mut Script) {
    for op in defined() {
        for oparg in [-2048, -2047, -33, -32, -31, -2, -1, 2047] {
            for old in [-2049, -2048, -1, 0, 1, 2047, 2048, i32::MAX, i32::MIN, 0x5a5a_5a5a] {
                brief(script, old as u32, s::val3(op, 5, oparg, 0));
            }
        }
    }
}

/// An undefined operation or comparison leaves all as it was, however its
/// arguments look.
fn undefined(script: &mut Script) {
    for (oparg, cmparg) in [(-1, -1), (-2048, -2048), (-1, 0), (1, -2048)] {
        script.fresh();
        script.events(&[s::wait((0, 1), 8, 0), s::wait((0, 2), 4, 0), s::store(0, 4, u32::MAX)]);
        for (op, cmp) in
            [(5, 0), (6, 1), (7, 2), (13, 3), (14, 4), (15, 5), (0, 6), (9, 7), (4, 15)]
        {
            script.event(s::wake_op((0, 0), 8, 4, (1, 1), s::val3(op, cmp, oparg, cmparg)));
            script.word(0, 4);
        }
        script.dump();
    }
}

/// The same word twice, and -1 in it.
fn equal_and_negative(script: &mut Script) {
    for cmp in 0..6 {
        for cmparg in [-1, 0] {
            script.fresh();
            for index in [3, 1, 2] {
                script.event(s::wait((0, index), 4, 0));
            }
            script.event(s::store(0, 4, u32::MAX));
            script.event(s::wake_op((0, 0), 4, 4, (1, 1), s::val3(1, cmp, 1, cmparg)));
            script.word(0, 4);
            script.dump();
        }
    }
}
