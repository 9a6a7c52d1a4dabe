//! Sentences of document 01 about calls.

use super::{Checks, Display};
use crate::model::{Answer, Call, Event, State, THREADS, WOKEN};
use crate::shorthand as s;

pub fn run(checks: &mut Checks) {
    order(checks);
    caps(checks);
    ignored(checks);
    deadlines(checks);
    private_futexes(checks);
    requeue_places(checks);
    full_list(checks);
}

fn text(events: &[Event], call: Event) -> String {
    Display::after(events).text(call)
}

/// Faults heaped up from the last row of the table of answers to the first:
/// each new one hides all that came before.
fn order(checks: &mut Checks) {
    let mut display = Display::after(&[s::clock(9), s::wait((0, 0), 8, 0), s::wait((1, 0), 8, 0)]);
    let mut call =
        Call { index: 1, op: 9, uaddr: 8, flag: 1, timeout: 9, val3: 1, ..Call::default() };
    let mut tell = |display: &mut Display, call: Call, want: i32| {
        let before = (display.state.clone(), display.words.clone());
        let name = format!("order, {want}");
        checks.equal(&name, display.answer(Event::Call(call)), Answer::Number(want));
        checks.holds(&name, before == (display.state.clone(), display.words.clone()));
    };
    tell(&mut display, call, -110);
    call.val = 1;
    tell(&mut display, call, -11);
    call.uaddr = 4096;
    tell(&mut display, call, -14);
    call.val3 = 0;
    tell(&mut display, call, -22);
    call.op = 256 + 9;
    tell(&mut display, call, -38);
    call.index = 0;
    tell(&mut display, call, -16);
    call.index = 8;
    tell(&mut display, call, -3);
    display.state.list[63] = 3;
    tell(&mut display, call, -9);
    display.words.pop();
    tell(&mut display, call, -6);
}

fn caps(checks: &mut Checks) {
    let sleepers = [s::wait((0, 1), 8, 0), s::wait((0, 2), 8, 0)];
    let (high, too_high) = (2147483647, 2147483648);
    let who = (0, 0);
    for (call, want) in [
        (s::wake(who, 8, high), "2"),
        (s::wake_bitset(who, 8, too_high, 1), "-22"),
        (s::requeue(who, 8, 16, too_high, 1), "-22"),
        (s::requeue(who, 8, 16, 1, too_high as u64), "-22"),
        (s::requeue(who, 8, 16, 1, 1 << 32), "1"),
        (s::cmp_requeue(who, 8, 16, (1, (1 << 32) + 1), 0), "2"),
        (s::cmp_requeue(who, 8, 16, (1, u64::MAX), 0), "-22"),
        (s::cmp_requeue(who, 8, 8, (1, 1), 0), "-22"),
        (s::cmp_requeue(who, 4096, 4096, (1, 1), 0), "-22"),
        (s::requeue(who, 8, 8, 1, 1), "-22"),
        (s::wake_op(who, 8, 8, (1, 1), 0), "2"),
        (s::wake_op(who, 8, 16, (too_high, 0), 0), "-22"),
        (s::wake_op(who, 8, 16, (0, too_high as u64), 0), "-22"),
        // A wait's val is no cap.
        (s::wait(who, 8, too_high), "-11"),
    ] {
        checks.equal(&format!("caps, {call:?}"), text(&sleepers, call), want.into());
    }
}

/// Arguments that a command doesn't use are ignored.
fn ignored(checks: &mut Checks) {
    let junk =
        Call { uaddr: 8, flag: 255, timeout: u64::MAX, uaddr2: 4095, val3: 0, ..Call::default() };
    let sleepers = [s::wait((0, 1), 8, 0)];
    let wake = Event::Call(Call { op: 1, val: 5, ..junk });
    checks.equal("WAKE ignores", text(&sleepers, wake), "1".into());
    let wait = Event::Call(Call { op: 0, ..junk });
    checks.equal("WAIT ignores", text(&sleepers, wait), "asleep".into());
    let bitset = Event::Call(Call { op: 10, val: 5, val3: 1, ..junk });
    checks.equal("WAKE_BITSET ignores", text(&sleepers, bitset), "1".into());
    let requeue = Call { op: 3, val: 5, val3: 77, timeout: 1, uaddr2: 0, ..junk };
    checks.equal("REQUEUE ignores", text(&sleepers, Event::Call(requeue)), "1".into());
    let untimed = Event::Call(Call { op: 9, flag: 0, val3: 1, timeout: 0, ..junk });
    checks.equal("no flag, no timeout", text(&sleepers, untimed), "asleep".into());
}

fn deadlines(checks: &mut Checks) {
    let mut display = Display::after(&[s::clock(7), s::wait_for((0, 0), 8, 0, u64::MAX)]);
    checks.equal("saturates", display.state.threads[0].deadline, u64::MAX);
    checks.equal("one before", display.text(s::clock(u64::MAX - 1)), "0".into());
    checks.equal("at the last", display.text(s::clock(u64::MAX)), "1".into());
    checks.equal("at once", display.text(s::wait_for((0, 0), 8, 0, 9)), "-110".into());
    checks.equal("last kept", display.state.threads[0].last, 2);
    let clock = [s::clock(20)];
    checks.equal("absolute", text(&clock, s::wait_until((0, 0), 8, 0, 1, 20)), "-110".into());
    checks.equal("ahead", text(&clock, s::wait_until((0, 0), 8, 0, 1, 21)), "asleep".into());
    let mut call = Call { op: 9, uaddr: 8, val3: 1, timeout: 20, ..Call::default() };
    for flag in [1, 2, 255] {
        call.flag = flag;
        checks.equal("flag", text(&clock, Event::Call(call)), "-110".into());
    }
}

/// The same address in another process is another futex.
fn private_futexes(checks: &mut Checks) {
    let sleepers = [s::wait((0, 1), 8, 0), s::wait((1, 1), 8, 0), s::wait((0, 2), 12, 0)];
    let mut display = Display::after(&sleepers);
    checks.equal("only its own", display.text(s::wake((1, 0), 8, 9)), "1".into());
    checks.equal("the others", display.listed(), vec![1, 2]);
    checks.equal("none there", display.text(s::wake((2, 0), 8, 9)), "0".into());
    checks.equal("own store", display.text(s::store(1, 8, 3)), "0".into());
    checks.equal("word", (display.words[2], display.words[1026]), (0, 3));
    checks.equal("own word", display.text(s::wait((0, 3), 8, 0)), "asleep".into());
}

/// Moved sleepers join the end in their order, mask and deadline kept.
fn requeue_places(checks: &mut Checks) {
    let mut display = Display::after(&[
        s::wait_until((0, 1), 8, 0, 5, 99),
        s::wait((0, 2), 16, 0),
        s::wait((0, 3), 8, 0),
        s::wait((1, 4), 8, 0),
        s::wait((0, 5), 8, 0),
        s::requeue((0, 0), 8, 16, 0, 2),
    ]);
    checks.equal("to the end", display.listed(), vec![2, 12, 5, 1, 3]);
    let moved = display.state.threads[1];
    let kept = (moved.uaddr, moved.bitset, moved.timed, moved.deadline, moved.last);
    checks.equal("kept", kept, (16, 5, true, 99, 0));
    checks.equal("first there", display.text(s::wake((0, 0), 16, 2)), "2".into());
    checks.equal("in order", display.listed(), vec![12, 5, 3]);
    checks.equal("woken", display.state.threads[1].last, WOKEN);
}

/// With 63 asleep the last thread can still sleep; then nobody can call.
fn full_list(checks: &mut Checks) {
    let mut display = Display::fresh();
    for number in 0..THREADS as u8 {
        let event = s::wait((number / 8, number % 8), 8, 0);
        checks.equal("all sleep", display.answer(event), Answer::Asleep);
    }
    checks.equal("64", display.state.count, 64);
    checks.holds("sound", display.state.rules_hold());
    checks.equal("busy", display.text(s::wait((7, 7), 8, 0)), "-16".into());
    for number in (0..THREADS as u8).rev() {
        checks.equal("ends", display.text(s::interrupt((number / 8, number % 8))), "1".into());
    }
    checks.holds("empty", display.state.list == State::fresh().list);
}
