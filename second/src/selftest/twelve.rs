//! P1 to P12, P8 as request (ii) amends it, and the whole case of the log.

use super::{replayed, Checks, Display};
use crate::log;
use crate::model::{Call, Event, TIMED_OUT, WOKEN};
use crate::shorthand as s;

pub fn run(checks: &mut Checks) {
    p1_to_p4(checks);
    p5(checks);
    p6_and_p7(checks);
    p8_and_p9(checks);
    p10_and_p11(checks);
    p12(checks);
    whole_case(checks);
}

fn p1_to_p4(checks: &mut Checks) {
    let mut display = Display::after(&[s::store(0, 8, 5)]);
    checks.equal("P1", display.text(s::wait((0, 0), 8, 5)), "asleep".into());
    checks.equal("P1 other", display.text(s::wait((0, 1), 8, 4)), "-11".into());
    checks.equal("P1 list", display.listed(), vec![0]);
    let mut display = Display::after(&[s::store(0, 4092, 7)]);
    checks.equal("P2", display.text(s::wait((0, 0), 4092, 7)), "asleep".into());
    for (address, want) in [(4094, "-22"), (4096, "-14"), (4097, "-22")] {
        let mut display = Display::fresh();
        checks.equal("P3", display.text(s::wait((0, 0), address, 0)), want.into());
        checks.holds("P3 unchanged", display.state == Display::fresh().state);
    }
    let mut display = Display::after(&[s::wait((0, 1), 8, 0)]);
    checks.equal("P4 cap 0", display.text(s::wake((0, 0), 8, 0)), "0".into());
    checks.equal("P4 cap", display.text(s::wake((0, 0), 8, 2147483648)), "-22".into());
    checks.equal("P4 list", display.listed(), vec![1]);
}

fn p5(checks: &mut Checks) {
    let mut display = Display::after(&[
        s::wait_bitset((0, 1), 8, 0, 1),
        s::wait_bitset((0, 2), 8, 0, 2),
        s::wait_bitset((0, 3), 8, 0, 3),
    ]);
    checks.equal("P5", display.text(s::wake_bitset((0, 0), 8, 1, 2)), "1".into());
    checks.equal("P5 list", display.listed(), vec![1, 3]);
    checks.equal("P5 last", display.state.threads[2].last, WOKEN);
}

fn p6_and_p7(checks: &mut Checks) {
    let calls =
        [(s::cmp_requeue((0, 0), 8, 16, (1, 1), 0), "2"), (s::requeue((0, 0), 8, 16, 1, 1), "1")];
    for (call, want) in calls {
        let mut display =
            Display::after(&[s::wait((0, 1), 8, 0), s::wait((0, 2), 8, 0), s::wait((0, 3), 8, 0)]);
        checks.equal("P6, P7", display.text(call), want.into());
        checks.equal("P6, P7 list", display.listed(), vec![3, 2]);
        checks.equal("P6, P7 moved", display.state.threads[2].uaddr, 16);
        checks.equal("P6, P7 left", display.state.threads[3].uaddr, 8);
        checks.equal("P6, P7 last", display.state.threads[1].last, WOKEN);
    }
}

fn p8_and_p9(checks: &mut Checks) {
    // P8 compares false and leaves the second word's sleeper, P9 releases both.
    for (old, val3, new, released, left) in
        [(u32::MAX, 0x14001000, 0, "1", vec![1]), (3, 0xB0021003, 1, "2", vec![])]
    {
        let mut display =
            Display::after(&[s::store(0, 4, old), s::wait((0, 1), 4, old), s::wait((0, 2), 8, 0)]);
        let call = s::wake_op((0, 0), 8, 4, (1, 1), val3);
        checks.equal("P8, P9", display.text(call), released.into());
        checks.equal("P8, P9: list", display.listed(), left);
        checks.equal("P8, P9: word", display.words[1], new);
    }
}

fn p10_and_p11(checks: &mut Checks) {
    let mut display = Display::after(&[s::clock(5), s::wait_for((0, 0), 8, 0, 10)]);
    for (time, want) in [(14, "0"), (15, "1"), (14, "-22")] {
        checks.equal("P10", display.text(s::clock(time)), want.into());
    }
    checks.equal("P10 last", display.state.threads[0].last, TIMED_OUT);
    checks.equal("P10 clock", display.state.clock, 15);
    checks.equal("P11", display.text(s::wait_for((0, 1), 8, 0, 0)), "-110".into());
    checks.equal("P11 other", display.text(s::wait_for((0, 1), 8, 1, 0)), "-11".into());
    checks.equal("P11 list", display.listed(), vec![]);
}

fn p12(checks: &mut Checks) {
    for (op, want) in [(0, "asleep"), (128, "asleep"), (256, "-38"), (2, "-38"), (512, "-38")] {
        let call = Event::Call(Call { op, uaddr: 8, ..Call::default() });
        checks.equal("P12", Display::fresh().text(call), want.into());
    }
}

fn whole_case(checks: &mut Checks) {
    let mut bytes = vec![2, 0, 8, 0, 0, 0, 5, 0, 0, 0];
    for event in [s::wait((0, 0), 8, 5), s::wake((0, 1), 8, 1)] {
        let mut room = [0; 32];
        checks.equal("whole case", log::write(&event, &mut room), 32);
        bytes.extend(room);
    }
    checks.equal("whole case", replayed(&bytes), "0\nasleep\n1\n".into());
    let mut room = [0; 10];
    checks.equal("store record", log::write(&s::store(0, 8, 5), &mut room), 10);
    checks.equal("store record", room.as_slice(), &bytes[..10]);
}
