//! Request (vi) of document 02: the event that sets a base priority, what the
//! priority is kept through, that nothing hangs on it but who is taken, and that the
//! other kinds of the log have the bytes that they had.

use std::collections::BTreeMap;

use super::logs::record;
use super::{replayed, Checks, Display};
use crate::generate::{events, tables};
use crate::model::{Answer, Call, Event, State, Thread, THREADS, WORDS};
use crate::rng::Rng;
use crate::shorthand::{self as s, Who};

pub fn run(checks: &mut Checks) {
    every_value(checks);
    every_thread(checks);
    order(checks);
    table_rule(checks);
    kept(checks);
    only_by_its_event(checks);
    only_on_the_order(checks);
    bytes(checks);
}

/// A thread that runs, sleepers with and without a deadline, one of another
/// process.
const TARGETS: [Who; 4] = [(0, 7), (0, 0), (0, 1), (1, 0)];

fn sleepers() -> Display {
    Display::after(&[
        s::clock(9),
        s::wait((0, 0), 8, 0),
        s::wait_for((0, 1), 8, 0, 50),
        s::wait((1, 0), 8, 0),
    ])
}

fn number(who: Who) -> usize {
    8 * who.0 as usize + who.1 as usize
}

/// 0 to 31 are set and all others refused, one after another; nothing but that
/// priority changes.
fn every_value(checks: &mut Checks) {
    for who in TARGETS {
        let mut display = sleepers();
        for priority in 0..=255 {
            let mut want = display.clone();
            let good = priority < 32;
            if good {
                want.state.threads[number(who)].priority = priority;
            }
            let line = if good { "0" } else { "-22 reason 8" };
            let report = display.report(s::set_priority(who, priority));
            checks.equal("every value", report.to_string(), line.into());
            checks.holds("every value, left", display.state == want.state);
            checks.holds("every value, words", display.words == want.words);
        }
        checks.equal("the last good one", display.state.threads[number(who)].priority, 31);
    }
}

/// Every process with every index; the fresh priority is 0.
fn every_thread(checks: &mut Checks) {
    let mut display = Display::fresh();
    checks.holds("fresh", display.state.threads.iter().all(|thread| thread.priority == 0));
    for (process, index) in (0..=255).flat_map(|p| [0, 1, 7, 8, 9, 128, 255].map(|i| (p, i))) {
        let priority = 1 + (process ^ index) % 31;
        let inside = process < 8 && index < 8;
        let want = if inside { "0" } else { "-3" };
        checks.equal(
            "thread",
            display.text(s::set_priority((process, index), priority)),
            want.into(),
        );
        if inside {
            let thread = Thread::running(0, priority);
            checks.equal("its own", display.state.threads[number((process, index))], thread);
        }
    }
    let set = display.state.threads.iter().filter(|thread| thread.priority > 0).count();
    checks.equal("eight processes, three indexes", set, 24);
}

/// Faults heaped up from the last to the first: each new one hides the others.
fn order(checks: &mut Checks) {
    let mut display = sleepers();
    let mut tell = |display: &mut Display, who, priority, want: &str| {
        let before = (display.state.clone(), display.words.clone());
        let got = display.report(s::set_priority(who, priority)).to_string();
        checks.equal("order", got, want.into());
        checks.holds("order, left", before == (display.state.clone(), display.words.clone()));
    };
    tell(&mut display, (0, 0), 32, "-22 reason 8");
    tell(&mut display, (0, 8), 32, "-3");
    tell(&mut display, (8, 0), 32, "-3");
    tell(&mut display, (8, 0), 31, "-3");
    display.state.threads[63].priority = 32;
    tell(&mut display, (8, 0), 32, "-9");
    tell(&mut display, (7, 7), 0, "-9");
    display.words.pop();
    tell(&mut display, (8, 0), 32, "-6");
    tell(&mut display, (0, 0), 0, "-6");
    display.state.threads[63].priority = 31;
    tell(&mut display, (0, 0), 0, "-6");
}

/// Every value in a running record and in a waiting one: above 31 every event is
/// -9, and a query 0, 0, 8.
fn table_rule(checks: &mut Checks) {
    for (which, priority) in [0, 7, 8, 63].into_iter().flat_map(|t| (0..=255).map(move |p| (t, p)))
    {
        let mut display = sleepers();
        display.state.threads[which].priority = priority;
        let good = priority < 32;
        checks.equal("rule", display.state.rules_hold(), good);
        let want = if good { ["0", "3 2 0"] } else { ["-9", "0 0 8"] };
        for (event, want) in [(s::store(1, 8, 1), want[0]), (s::query(0), want[1])] {
            checks.equal("rule, answer", display.text(event), want.into());
        }
    }
}

/// One thread through every sort of sleep, its priority looked at after each
/// event.
fn kept(checks: &mut Checks) {
    let (who, other) = ((2, 3), (2, 0));
    let lives = [
        [s::wait(who, 8, 0), s::wake(other, 8, 1), s::interrupt(who)],
        [s::wait_bitset(who, 8, 0, 4), s::wake_bitset(other, 8, 1, 6), s::clock(1)],
        [s::wait_for(who, 8, 0, 10), s::clock(11), s::clock(10)],
        [s::wait_until(who, 8, 0, 1, 20), s::clock(20), s::wait_for(who, 8, 0, 0)],
        [s::wait(who, 8, 0), s::interrupt(who), s::wait(who, 8, 1)],
        [s::wait(who, 8, 0), s::requeue(other, 8, 16, 0, 1), s::requeue(other, 16, 8, 1, 0)],
        [s::wait(who, 8, 0), s::cmp_requeue(other, 8, 16, (0, 1), 0), s::wake(other, 16, 1)],
        [s::wait(who, 8, 0), s::wake_op(other, 16, 8, (1, 1), 0), s::wake(who, 9, 1)],
        [s::wait(who, 8, 0), s::wait(who, 8, 0), s::wake_op(other, 8, 8, (0, 1), 0)],
    ];
    for priority in [0, 1, 31] {
        let mut display = Display::after(&[s::set_priority(who, priority)]);
        for event in lives.into_iter().flatten() {
            display.answer(event);
            let record = display.state.threads[number(who)];
            checks.equal(&format!("kept, {event:?}"), record.priority, priority);
        }
        checks.equal("at last", display.state.threads[number(who)], Thread::running(1, priority));
    }
    // A new one in the middle of a sleep is kept from there on.
    let set = s::set_priority(who, 9);
    let mut display = Display::after(&[s::wait_for(who, 8, 0, 10), set, s::clock(10)]);
    checks.equal("set asleep", display.state.threads[number(who)], Thread::running(2, 9));
    checks.equal("0 again", display.text(s::set_priority(who, 0)), "0".into());
    checks.equal("0 again", display.state.threads[number(who)], Thread::running(2, 0));
}

fn priorities(state: &State) -> [u8; THREADS] {
    state.threads.map(|thread| thread.priority)
}

/// The same tables with all priorities 0.
fn stripped(state: &State) -> State {
    let mut state = state.clone();
    state.threads.iter_mut().for_each(|thread| thread.priority = 0);
    state
}

/// What became of the sleepers that have a priority, by a name for the count.
fn fates(before: &State, after: &State, event: &Event) -> Vec<&'static str> {
    let ended = match event {
        Event::Clock { .. } => "timed out",
        Event::Interrupt { .. } => "interrupted",
        _ => "released",
    };
    let pairs = before.threads.iter().zip(&after.threads);
    let fate = |(was, is): (&Thread, &Thread)| match (was.waiting, is.waiting) {
        _ if was.priority == 0 => None,
        (true, false) => Some(ended),
        (false, true) => Some("fell asleep"),
        (true, true) if was.uaddr != is.uaddr => Some("moved"),
        _ if was.priority == is.priority => None,
        (true, true) => Some("set asleep"),
        (false, false) => Some("set running"),
    };
    pairs.filter_map(fate).collect()
}

/// In histories no event changes a priority but one that sets it and answers 0,
/// and that one changes no other and nothing else.
fn only_by_its_event(checks: &mut Checks) {
    let mut seen = BTreeMap::new();
    for seed in 0..100 {
        let mut rng = Rng::new(seed ^ 0x6006);
        let mut display = Display { state: tables::sound(&mut rng), ..Display::fresh() };
        for _ in 0..200 {
            let event = events::next(&mut rng, &display.state, &display.words);
            let before = display.state.clone();
            let answer = display.answer(event);
            let mut want = priorities(&before);
            if let (Event::SetPriority { process, index, priority }, Answer::Number(0)) =
                (event, answer)
            {
                want[number((process, index))] = priority;
                checks.holds("nothing else", stripped(&display.state) == stripped(&before));
            }
            checks.holds(&format!("by {event:?}"), priorities(&display.state) == want);
            for fate in fates(&before, &display.state, &event) {
                *seen.entry(fate).or_insert(0) += 1;
            }
        }
    }
    for name in [
        "released",
        "moved",
        "timed out",
        "interrupted",
        "fell asleep",
        "set asleep",
        "set running",
    ] {
        let times = seen.get(name).copied().unwrap_or(0);
        checks.holds(&format!("{name} is frequent, {times}"), times >= 50);
    }
}

/// With other priorities each event reports the same, and leaves the same words and
/// clock and as many sleepers at each word. What takes nobody by rank leaves the same
/// tables, too.
fn only_on_the_order(checks: &mut Checks) {
    for seed in 0..60 {
        let mut rng = Rng::new(seed ^ 0x6007);
        let mut display = Display { state: tables::sound(&mut rng), ..Display::fresh() };
        for _ in 0..200 {
            let event = events::next(&mut rng, &display.state, &display.words);
            let mut none = Display { state: stripped(&display.state), ..display.clone() };
            let mut others = display.clone();
            tables::set_priorities(&mut rng, &mut others.state);
            let report = display.report(event);
            for other in [&mut none, &mut others] {
                checks.equal("no effect", other.report(event), report);
                let same = match event {
                    Event::Call(call) if ![0, 9].contains(&(call.op & !128)) => {
                        queues(&other.state) == queues(&display.state)
                    }
                    _ => stripped(&other.state) == stripped(&display.state),
                };
                checks.holds("no effect, left", same && other.words == display.words);
            }
        }
    }
}

/// The clock, and how many sleep at each word of each process.
fn queues(state: &State) -> (u64, BTreeMap<(usize, u32), u32>) {
    let mut queues = BTreeMap::new();
    for (number, thread) in state.threads.iter().enumerate().filter(|(_, t)| t.waiting) {
        *queues.entry((number / 8, thread.uaddr)).or_insert(0) += 1;
    }
    (state.clock, queues)
}

/// A record of each kind, by hand, and a replay of the new one.
fn bytes(checks: &mut Checks) {
    let call = Call {
        process: 1,
        index: 2,
        op: 0x0403_0201,
        uaddr: 0x0807_0605,
        val: 0x0c0b_0a09,
        flag: 1,
        timeout: 0x1817_1615_1413_1211,
        uaddr2: 0x2423_2221,
        val3: 0x3433_3231,
    };
    let head = [1, 1, 2, 1, 2, 3, 4, 5, 6, 7, 8, 9, 10, 11, 12, 1];
    let numbers = [0x11, 0x12, 0x13, 0x14, 0x15, 0x16, 0x17, 0x18, 0x21, 0x22, 0x23, 0x24];
    let bytes = [&head[..], &numbers, &[0x31, 0x32, 0x33, 0x34]].concat();
    checks.equal("kind 1", record(&Event::Call(call)), bytes);
    let store = s::store(7, 0x0403_0201, 0x0807_0605);
    checks.equal("kind 2", record(&store), vec![2, 7, 1, 2, 3, 4, 5, 6, 7, 8]);
    let clock = s::clock(0x0807_0605_0403_0201);
    checks.equal("kind 3", record(&clock), vec![3, 1, 2, 3, 4, 5, 6, 7, 8]);
    checks.equal("kind 4", record(&s::interrupt((6, 5))), vec![4, 6, 5]);
    checks.equal("kind 5", record(&s::set_priority((7, 6), 250)), vec![5, 7, 6, 250]);
    let log = [5, 0, 0, 31, 5, 0, 0, 32, 5, 8, 0, 0, 5, 0, 8, 255, 5, 7, 7, 0];
    let lines = "0\n-22\n-3\n-3\n0\n";
    checks.equal("replayed", replayed(&log), lines.into());
    checks.equal("cut", replayed(&log[..19]), lines[..lines.len() - 2].to_string() + "-61\n");
    checks.equal("kind 6", replayed(&[5, 0, 0, 1, 6, 0, 0, 1]), "0\n-71\n".into());
    let mut short = Display { words: vec![0; WORDS + 1], ..sleepers() };
    checks.equal("memory", short.text(s::set_priority((0, 0), 1)), "-6".into());
}
