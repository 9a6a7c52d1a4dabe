//! WAKE_OP's operations and comparisons, by document 01 and request (ii) of
//! document 02.

use super::{Checks, Display};
use crate::shorthand as s;

pub fn run(checks: &mut Checks) {
    operations(checks);
    negative_operands(checks);
    comparisons(checks);
    every_field(checks);
    negative_powers(checks);
    as_document_01(checks);
    undefined(checks);
}

/// One sleeper at the second word and none at the first, so that the answer
/// says how the comparison went; the new word beside it.
fn tried(old: u32, val3: u32) -> (String, u32) {
    let mut display = Display::after(&[s::store(0, 4, old), s::wait((0, 1), 4, old)]);
    let answer = display.text(s::wake_op((0, 0), 8, 4, (9, 9), val3));
    (answer, display.words[1])
}

fn try_all(checks: &mut Checks, cases: &[(u32, u32, u32, &str)]) {
    for &(old, val3, new, released) in cases {
        let name = format!("WAKE_OP {val3:08x} on {old}");
        checks.equal(&name, tried(old, val3), (released.into(), new));
    }
}

/// Each operation and comparison by hand.
fn operations(checks: &mut Checks) {
    try_all(
        checks,
        &[
            (9, 0x00005009, 5, "1"),
            (9, 0x10005009, 14, "1"),
            (9, 0x20006009, 15, "1"),
            (9, 0x30001009, 8, "1"),
            (9, 0x40003009, 10, "1"),
            (9, 0x8001f009, 1 << 31, "1"),
            (9, 0x80020009, 1, "1"),
            (9, 0xa0fff009, 9 | 1 << 31, "1"),
            (9, 0x01000009, 0, "0"),
            (9, 0x02000009, 0, "0"),
            (8, 0x02000009, 0, "1"),
            (9, 0x03000009, 0, "1"),
            (10, 0x03000009, 0, "0"),
            (9, 0x04000009, 0, "0"),
            (u32::MAX, 0x04000fff, 0, "0"),
            (9, 0x05000009, 0, "1"),
            (8, 0x05000009, 0, "0"),
            (u32::MAX, 0x10fff000, u32::MAX - 1, "0"),
        ],
    );
}

/// Each operation with a negative oparg by hand: -1, -2 and -2048, whose
/// patterns are ffffffff, fffffffe and fffff800.
fn negative_operands(checks: &mut Checks) {
    try_all(
        checks,
        &[
            (0, 0x00fff000, 4294967295, "1"),
            (9, 0x00ffe000, 4294967294, "0"),
            (9, 0x00800000, 4294965248, "0"),
            (9, 0x10fff000, 8, "0"),
            (0, 0x10fff000, 4294967295, "1"),
            (0, 0x10800000, 4294965248, "1"),
            (2047, 0x10800000, 4294967295, "0"),
            (2048, 0x10800000, 0, "0"),
            (2147483648, 0x10fff000, 2147483647, "0"),
            (0x00000009, 0x20fff000, 0xffffffff, "0"),
            (0x00000009, 0x20ffe000, 0xffffffff, "0"),
            (0x00000009, 0x20800000, 0xfffff809, "0"),
            (0xa5a5a5a5, 0x30fff000, 0x00000000, "0"),
            (0xa5a5a5a5, 0x30ffe000, 0x00000001, "0"),
            (0xa5a5a5a5, 0x30800000, 0x000005a5, "0"),
            (0xa5a5a5a5, 0x40fff000, 0x5a5a5a5a, "0"),
            (0xa5a5a5a5, 0x40ffe000, 0x5a5a5a5b, "0"),
            (0xa5a5a5a5, 0x40800000, 0x5a5a5da5, "0"),
            // 2 to the power 31, 0 and 0 for -1, -32 and -2048.
            (0xa5a5a5a5, 0x80fff000, 0x80000000, "0"),
            (0xa5a5a5a5, 0x90fff000, 0x25a5a5a5, "0"),
            (0xa5a5a5a4, 0xa0fe0000, 0xa5a5a5a5, "0"),
            (0xa5a5a5a5, 0xb0800000, 0xa5a5a5a4, "0"),
            (0xa5a5a5a5, 0xc0fff000, 0x25a5a5a5, "0"),
        ],
    );
}

/// How each old word stands to cmparg -2048, -1, 0 and 2047.
const STANDS: &[(u32, &str)] = &[
    (2147483648, "<<<<"),
    (4294965247, "<<<<"), // -2049
    (4294965248, "=<<<"), // -2048
    (4294967295, ">=<<"), // -1
    (0, ">>=<"),
    (2047, ">>>="),
    (2048, ">>>>"),
    (2147483647, ">>>>"),
];

/// Each comparison over that table.
fn comparisons(checks: &mut Checks) {
    let true_for = ["=", "<>", "<", "<=", ">", ">="];
    for (cmp, signs) in (0..).zip(true_for) {
        for &(old, stands) in STANDS {
            for (cmparg, sign) in [0x800, 0xfff, 0, 0x7ff].into_iter().zip(stands.chars()) {
                let released = if signs.contains(sign) { "1" } else { "0" };
                try_all(checks, &[(old, cmp << 24 | cmparg, 0, released)]);
            }
        }
    }
}

/// A field of 2048 or more stands for itself less 4096: as operand, and as
/// cmparg between its two neighbours.
fn every_field(checks: &mut Checks) {
    for field in 0..4096u32 {
        let pattern = if field < 2048 { field } else { field.wrapping_sub(4096) };
        let args = field << 12 | field;
        try_all(
            checks,
            &[
                (pattern, args, pattern, "1"),
                (pattern.wrapping_sub(1), 0x02000000 | args, pattern, "1"),
                (pattern.wrapping_add(1), 0x04000000 | args, pattern, "1"),
            ],
        );
    }
}

/// From oparg -1 down, the power-of-two operand goes from 2 to the power 31 down
/// to 1, and again.
fn negative_powers(checks: &mut Checks) {
    for (oparg, power) in (2048..4096).rev().zip((0..32).rev().cycle()) {
        try_all(checks, &[(7, 0x80000000 | oparg << 12, 1 << power, "0")]);
    }
}

/// Where both arguments are below 2048 and the old word below 2^31, nothing has
/// changed.
fn as_document_01(checks: &mut Checks) {
    let args = [0, 1, 3, 31, 32, 2046, 2047];
    for old in [0, 1, 3, 2046, 2047, 2048, 4095, 4096, 2147483646, 2147483647] {
        for op in (0..5).chain(8..13) {
            for cmp in 0..6 {
                for (oparg, cmparg) in args.into_iter().flat_map(|a| args.map(|b| (a, b))) {
                    let val3 = op << 28 | cmp << 24 | oparg << 12 | cmparg;
                    let released = if unsigned_compares(old, cmp, cmparg) { "1" } else { "0" };
                    try_all(checks, &[(old, val3, unsigned_word(old, op, oparg), released)]);
                }
            }
        }
    }
}

/// Document 01's new word, oparg being 0 to 4095.
fn unsigned_word(old: u32, op: u32, oparg: u32) -> u32 {
    let operand = if op >= 8 { 1 << (oparg % 32) } else { oparg };
    match op % 8 {
        0 => operand,
        1 => old.wrapping_add(operand),
        2 => old | operand,
        3 => old & !operand,
        _ => old ^ operand,
    }
}

/// Document 01's comparison, cmparg being 0 to 4095.
fn unsigned_compares(old: u32, cmp: u32, cmparg: u32) -> bool {
    match cmp {
        0 => old == cmparg,
        1 => old != cmparg,
        2 => old < cmparg,
        3 => old <= cmparg,
        4 => old > cmparg,
        _ => old >= cmparg,
    }
}

/// What is undefined is so whatever the arguments, and changes nothing.
fn undefined(checks: &mut Checks) {
    for code in 0..256u32 {
        let defined = (code >> 4) % 8 <= 4 && code % 16 <= 5;
        for args in [0, 0xfff_fff, 0x800_800] {
            let mut display = Display::after(&[s::store(0, 4, 7), s::wait((0, 1), 8, 0)]);
            let call = s::wake_op((0, 0), 8, 4, (1, 1), code << 24 | args);
            let name = format!("WAKE_OP code {code:02x}, arguments {args:06x}");
            let want = if defined { "1" } else { "-38" };
            checks.equal(&name, display.text(call), want.into());
            if !defined {
                checks.equal(&name, (display.words[1], display.listed()), (7, vec![1]));
            }
        }
    }
}
