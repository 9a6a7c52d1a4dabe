//! Request (i) of document 02: the reason beside each number.

use super::{replayed, Checks, Display};
use crate::layout;
use crate::model::{Call, Event, WORDS};
use crate::shorthand as s;

/// A cap that is one too high, and a second cap likewise.
const HIGH: u32 = 1 << 31;
const HIGH2: u64 = 1 << 31;
const WHO: (u8, u8) = (0, 7);

pub fn run(checks: &mut Checks) {
    one_address(checks);
    requeues(checks);
    wake_ops(checks);
    limits(checks);
    not_in_use(checks);
    other_rows(checks);
    other_events(checks);
    printing(checks);
}

/// Each event on the same sleepers, with the line that a script prints. What is
/// -22 leaves everything as it was.
fn expect(checks: &mut Checks, cases: &[(Event, &str)]) {
    for &(event, want) in cases {
        let mut display = Display::after(&[
            s::clock(9),
            s::wait((0, 0), 8, 0),
            s::wait((0, 1), 16, 0),
            s::wait_until((1, 0), 8, 0, 3, 99),
        ]);
        let before = (display.state.clone(), display.words.clone());
        let name = format!("reason, {event:?}");
        checks.equal(&name, display.report(event).to_string(), want.into());
        if want.starts_with("-22") {
            checks.holds(&name, before == (display.state, display.words));
        }
    }
}

fn one_address(checks: &mut Checks) {
    expect(
        checks,
        &[
            (s::wait(WHO, 9, 0), "-22 reason 4"),
            (s::wait_for(WHO, 10, 0, 5), "-22 reason 4"),
            (s::wake(WHO, 8, HIGH), "-22 reason 1"),
            (s::wake(WHO, 11, 1), "-22 reason 4"),
            (s::wake(WHO, 9, HIGH), "-22 reason 1"),
            (s::wait_bitset(WHO, 8, 0, 0), "-22 reason 3"),
            (s::wait_bitset(WHO, 9, 0, 1), "-22 reason 4"),
            (s::wait_bitset(WHO, 9, 0, 0), "-22 reason 3"),
            (s::wake_bitset(WHO, 8, HIGH, 1), "-22 reason 1"),
            (s::wake_bitset(WHO, 8, 1, 0), "-22 reason 3"),
            (s::wake_bitset(WHO, 9, 1, 1), "-22 reason 4"),
            (s::wake_bitset(WHO, 8, HIGH, 0), "-22 reason 1"),
            (s::wake_bitset(WHO, 9, HIGH, 1), "-22 reason 1"),
            (s::wake_bitset(WHO, 9, 1, 0), "-22 reason 3"),
            (s::wake_bitset(WHO, 9, HIGH, 0), "-22 reason 1"),
        ],
    );
}

/// The addresses and caps of a two-address call, and the reason wanted of it.
/// Equal addresses that aren't aligned have reasons 4, 5 and 6 at once.
const REQUEUES: &[(u32, u32, u32, u64, &str)] = &[
    (8, 16, HIGH, 1, "-22 reason 1"),
    (8, 16, 1, HIGH2, "-22 reason 2"),
    (9, 16, 1, 1, "-22 reason 4"),
    (8, 18, 1, 1, "-22 reason 5"),
    (8, 8, 1, 1, "-22 reason 6"),
    (8, 16, HIGH, HIGH2, "-22 reason 1"),
    (9, 16, HIGH, 1, "-22 reason 1"),
    (8, 17, HIGH, 1, "-22 reason 1"),
    (8, 8, HIGH, 1, "-22 reason 1"),
    (9, 16, 1, HIGH2, "-22 reason 2"),
    (8, 17, 1, HIGH2, "-22 reason 2"),
    (8, 8, 1, HIGH2, "-22 reason 2"),
    (9, 17, 1, 1, "-22 reason 4"),
    (9, 9, 1, 1, "-22 reason 4"),
    (9, 9, HIGH, HIGH2, "-22 reason 1"),
    (9, 9, 1, HIGH2, "-22 reason 2"),
    (8192, 8192, 1, 1, "-22 reason 6"),
    (4097, 4097, 1, 1, "-22 reason 4"),
    (4096, 17, 1, 1, "-22 reason 5"),
    (17, 4096, 1, 1, "-22 reason 4"),
];

fn requeues(checks: &mut Checks) {
    for &(from, to, cap, second_cap, want) in REQUEUES {
        // The word at 8 is 0, so the second CMP_REQUEUE has -11 behind.
        expect(
            checks,
            &[
                (s::requeue(WHO, from, to, cap, second_cap), want),
                (s::cmp_requeue(WHO, from, to, (cap, second_cap), 0), want),
                (s::cmp_requeue(WHO, from, to, (cap, second_cap), 1), want),
            ],
        );
    }
}

/// As for a requeue, but that equal addresses are allowed; an undefined
/// operation stands behind.
fn wake_ops(checks: &mut Checks) {
    for &(first, second, cap, second_cap, want) in REQUEUES {
        if want == "-22 reason 6" {
            continue;
        }
        let caps = (cap, second_cap);
        expect(
            checks,
            &[
                (s::wake_op(WHO, first, second, caps, 0x1000_1000), want),
                (s::wake_op(WHO, first, second, caps, 0x5600_0000), want),
            ],
        );
    }
    expect(
        checks,
        &[
            (s::wake_op(WHO, 8, 8, (1, 1), 0), "1"),
            (s::wake_op(WHO, 8192, 8192, (1, 1), 0), "-14"),
            (s::wake_op(WHO, 8, 16, (1, 1), 0x5600_0000), "-38"),
        ],
    );
}

fn limits(checks: &mut Checks) {
    let most = 2147483647;
    expect(
        checks,
        &[
            (s::wake(WHO, 8, most), "1"),
            (s::wake(WHO, 8, u32::MAX), "-22 reason 1"),
            (s::wake_bitset(WHO, 8, most, 1), "1"),
            (s::requeue(WHO, 8, 16, most, most as u64), "1"),
            (s::requeue(WHO, 8, 16, 0, (7 << 32) + most as u64), "0"),
            (s::requeue(WHO, 8, 16, 0, (7 << 32) + HIGH2), "-22 reason 2"),
            (s::cmp_requeue(WHO, 8, 16, (0, u32::MAX as u64), 0), "-22 reason 2"),
            (s::cmp_requeue(WHO, 8, 16, (0, u64::MAX - HIGH2), 0), "1"),
            (s::wake_op(WHO, 8, 16, (0, u64::MAX), 0), "-22 reason 2"),
            (s::wake_op(WHO, 8, 16, (0, 1 << 63), 0), "0"),
            (s::wake_bitset(WHO, 8, 1, 1), "1"),
            (s::wait(WHO, 4092, 0), "asleep"),
            (s::wait(WHO, 4093, 0), "-22 reason 4"),
            (s::wait(WHO, 4095, 0), "-22 reason 4"),
            (s::wait(WHO, 4096, 0), "-14"),
            (s::wait(WHO, 4097, 0), "-22 reason 4"),
        ],
    );
}

/// What would be a fault elsewhere is none where the argument isn't used, and
/// doesn't hide one that is.
fn not_in_use(checks: &mut Checks) {
    let call = Call { index: 7, uaddr: 8, timeout: HIGH2, uaddr2: 3, ..Call::default() };
    let odd = |op, val, val3| Event::Call(Call { op, val, val3, uaddr: 9, uaddr2: 9, ..call });
    let even = |op, val, val3| Event::Call(Call { op, val, val3, ..call });
    expect(
        checks,
        &[
            (even(0, 0, 0), "asleep"),
            (even(0, HIGH, 0), "-11"),
            (odd(0, HIGH, 0), "-22 reason 4"),
            (even(1, 1, 0), "1"),
            (odd(1, 1, 0), "-22 reason 4"),
            (even(9, 0, 1), "asleep"),
            (even(9, HIGH, 1), "-11"),
            (even(9, HIGH, 0), "-22 reason 3"),
            (odd(9, HIGH, 1), "-22 reason 4"),
            (even(10, 1, 1), "1"),
            (even(10, 1, 0), "-22 reason 3"),
            (odd(10, 1, 1), "-22 reason 4"),
            (s::requeue(WHO, 8, 16, 1, 1), "1"),
            (s::cmp_requeue(WHO, 8, 16, (1, 1), 0), "1"),
        ],
    );
}

/// The rows before -22 have no reason, and those behind it can't come first.
fn other_rows(checks: &mut Checks) {
    let call = Call { index: 7, op: 4, uaddr: 9, val: HIGH, ..Call::default() };
    expect(
        checks,
        &[
            (Event::Call(Call { process: 8, ..call }), "-3"),
            (Event::Call(Call { index: 8, ..call }), "-3"),
            (Event::Call(Call { index: 0, ..call }), "-16"),
            (Event::Call(Call { op: 256 + 4, ..call }), "-38"),
            (Event::Call(Call { op: 2, ..call }), "-38"),
            (Event::Call(call), "-22 reason 1"),
            (s::wait(WHO, 4097, 5), "-22 reason 4"),
            (s::wait_until(WHO, 4096, 5, 0, 9), "-22 reason 3"),
            (s::wait_until(WHO, 8, 0, 0, 9), "-22 reason 3"),
            (s::wait_until(WHO, 8, 0, 1, 9), "-110"),
            (s::wait_for(WHO, 9, 0, 0), "-22 reason 4"),
        ],
    );
    let mut display = Display::fresh();
    display.state.list[63] = 0;
    let events = [Event::Call(call), s::store(0, 1, 1), s::clock(0), s::set_priority((0, 0), 32)];
    for event in events {
        checks.equal("broken tables", display.report(event).to_string(), "-9".into());
    }
    display.words.truncate(WORDS - 1);
    for event in events {
        checks.equal("short memory", display.report(event).to_string(), "-6".into());
    }
    let report = layout::step(None, layout::WORD_BYTES, &mut [], &Event::Call(call));
    checks.equal("no tables", report.to_string(), "-9".into());
}

fn other_events(checks: &mut Checks) {
    expect(
        checks,
        &[
            (s::store(7, 4092, 1), "0"),
            (s::store(7, 4093, 1), "-22 reason 4"),
            (s::store(7, 4096, 1), "-14"),
            (s::store(7, 4097, 1), "-22 reason 4"),
            (s::store(8, 1, 1), "-3"),
            (s::clock(8), "-22 reason 7"),
            (s::clock(0), "-22 reason 7"),
            (s::clock(9), "0"),
            (s::clock(99), "1"),
            (s::interrupt((0, 0)), "1"),
            (s::interrupt((0, 9)), "-3"),
            (s::set_priority((0, 0), 31), "0"),
            (s::set_priority((0, 0), 32), "-22 reason 8"),
            (s::set_priority((7, 7), 255), "-22 reason 8"),
            (s::set_priority((0, 9), 32), "-3"),
            (s::query(0), "3 2 0"),
            (s::query(9), "0 0 8"),
        ],
    );
    let mut display = Display::after(&[s::clock(u64::MAX)]);
    for (time, want) in [(0, "-22 reason 7"), (u64::MAX - 1, "-22 reason 7"), (u64::MAX, "0")] {
        checks.equal("last clock", display.report(s::clock(time)).to_string(), want.into());
    }
}

/// A replay prints the number alone.
fn printing(checks: &mut Checks) {
    let log = [2, 0, 1, 0, 0, 0, 5, 0, 0, 0];
    checks.equal("replay", replayed(&log), "-22\n".into());
}
