//! Request (vii) of document 02: whom wakes and requeues take. By hand, that equal
//! priorities leave all as it was before, that only the comparison of two priorities
//! counts, and that the made scripts and logs tell one order from the other.

use super::declared::{self, Order};
use super::{one_go, pairs, Checks, Display};
use crate::generate::{events, logs, random, tables};
use crate::model::{Event, State, WORDS};
use crate::rng::Rng;
use crate::script::{self, Machine, Record};
use crate::shorthand::{self as s, Who};

pub fn run(checks: &mut Checks) {
    stop_key(checks);
    wakes_by_hand(checks);
    requeues_by_hand(checks);
    equal_priorities(checks);
    other_numbers(checks);
    frequent_in_scripts(checks);
    shown_by_logs(checks);
}

const WHO: Who = (0, 7);

/// Threads of process 0, in the order in which they come: index, address, mask and
/// priority.
type Row = &'static [(usize, u32, u32, u8)];

/// Two stand out at 8, by a little and by much, and one at 16 above them all.
const FIVE: Row = &[(3, 8, 1, 5), (0, 8, 6, 30), (4, 16, 1, 31), (2, 8, 3, 5), (1, 8, 4, 31)];

fn asleep(row: Row) -> Display {
    let mut display = Display::fresh();
    for &(number, address, mask, priority) in row {
        display.state.join(number, address, mask, None);
        display.state.threads[number].priority = priority;
    }
    display
}

/// The request's own case: logging came first, the stop key goes first.
fn stop_key(checks: &mut Checks) {
    let (logging, stop) = ((3, 1), (3, 0));
    let mut display =
        Display::after(&[s::set_priority(stop, 31), s::wait(logging, 8, 0), s::wait(stop, 8, 0)]);
    checks.equal("stop key", display.text(s::wake((3, 2), 8, 1)), "1".into());
    checks.equal("stop key, left", display.listed(), vec![25]);
    // It comes again and goes first again; as an equal it has to wait.
    for (priority, left) in [(1, 25), (0, 24)] {
        display.answer(s::set_priority(stop, priority));
        display.answer(s::wait(stop, 8, 0));
        display.answer(s::wake((3, 2), 8, 1));
        checks.equal("stop key again", display.listed(), vec![left]);
    }
}

fn wakes_by_hand(checks: &mut Checks) {
    let wake = |cap| s::wake(WHO, 8, cap);
    let bitset = |cap, mask| s::wake_bitset(WHO, 8, cap, mask);
    let wake_op = |first, second, caps| s::wake_op(WHO, first, second, caps, 0);
    for (event, answer, left) in [
        (wake(0), "0", vec![3, 0, 4, 2, 1]),
        (wake(1), "1", vec![3, 0, 4, 2]),
        (wake(2), "2", vec![3, 4, 2]),
        (wake(3), "3", vec![4, 2]),
        (wake(2147483647), "4", vec![4]),
        (bitset(1, 1), "1", vec![0, 4, 2, 1]),
        (bitset(2, 1), "2", vec![0, 4, 1]),
        (bitset(1, 2), "1", vec![3, 4, 2, 1]),
        (bitset(2, 4), "2", vec![3, 4, 2]),
        (bitset(9, 8), "0", vec![3, 0, 4, 2, 1]),
        (wake_op(8, 16, (1, 1)), "2", vec![3, 0, 2]),
        (wake_op(16, 8, (0, 2)), "2", vec![3, 4, 2]),
        (wake_op(8, 8, (1, 1)), "2", vec![3, 4, 2]),
        (wake_op(8, 8, (1, 2)), "3", vec![4, 2]),
        (wake_op(8, 8, (0, 1)), "1", vec![3, 0, 4, 2]),
    ] {
        let mut display = asleep(FIVE);
        checks.equal(&format!("{event:?}"), display.text(event), answer.into());
        checks.equal(&format!("{event:?}, left"), display.listed(), left);
    }
}

/// Those who move come last, in the order in which they were taken.
fn requeues_by_hand(checks: &mut Checks) {
    for (caps, sum, left) in [
        ((0, 0), 0, vec![3, 0, 4, 2, 1]),
        ((0, 1), 1, vec![3, 0, 4, 2, 1]),
        ((0, 2), 2, vec![3, 4, 2, 1, 0]),
        ((0, 9), 4, vec![4, 1, 0, 3, 2]),
        ((1, 1), 2, vec![3, 4, 2, 0]),
        ((1, 2), 3, vec![4, 2, 0, 3]),
        ((2, 9), 4, vec![4, 3, 2]),
        ((9, 9), 4, vec![4]),
    ] {
        let mut display = asleep(FIVE);
        let event = s::cmp_requeue(WHO, 8, 16, caps, 0);
        checks.equal("requeue", display.text(event), sum.to_string());
        checks.equal(&format!("requeue {caps:?}"), display.listed(), left.clone());
        let mut display = asleep(FIVE);
        let released = caps.0.min(4).to_string();
        checks.equal("requeue", display.text(s::requeue(WHO, 8, 16, caps.0, caps.1)), released);
        checks.equal(&format!("requeue {caps:?}"), display.listed(), left);
    }
    // Thread 1 was taken before 3, so it stands before it, and as its equal goes first.
    let mut display = asleep(FIVE);
    display.answer(s::requeue(WHO, 8, 16, 0, 9));
    for index in 0..5 {
        display.answer(s::set_priority((0, index), 2));
    }
    for left in [vec![1, 0, 3, 2], vec![0, 3, 2], vec![3, 2], vec![2], vec![]] {
        display.answer(s::wake(WHO, 16, 1));
        checks.equal("then equal", display.listed(), left);
    }
}

fn level(state: &mut State, priority: u8) {
    state.threads.iter_mut().for_each(|thread| thread.priority = priority);
}

/// The request's sentence: in tables whose priorities are all equal each event's
/// answer and all that it leaves are as they were by arrival.
fn equal_priorities(checks: &mut Checks) {
    let mut chosen = 0;
    for seed in 0..220 {
        let mut rng = Rng::new(seed ^ 0x7007);
        let mut display = Display { state: tables::sound(&mut rng), ..Display::fresh() };
        for _ in 0..150 {
            level(&mut display.state, seed as u8 % 32);
            let event = events::next(&mut rng, &display.state, &display.words);
            let words = &display.words;
            let want = declared::outcome_by(Order::Arrival, &display.state, words, &event);
            let found = display.state.clone();
            let report = display.report(event);
            checks.equal(&format!("as before, {event:?}"), report, want.0);
            checks.holds("as before, tables", display.state == want.1);
            checks.holds("as before, words", display.words == want.2);
            chosen += pairs::leaves_some(&found, &display.state, &event) as u64;
        }
    }
    checks.holds(&format!("some are left at a word, {chosen}"), chosen >= 1000);
}

/// The same history with other numbers in the same order goes the same way.
fn other_numbers(checks: &mut Checks) {
    let raise: [fn(u8) -> u8; 3] = [|low| low + 16, |low| 2 * low, |low| low + low / 8];
    for seed in 0..60 {
        let mut rng = Rng::new(seed ^ 0x7008);
        let raise = raise[seed as usize % 3];
        let mut low = Display { state: tables::sound(&mut rng), ..Display::fresh() };
        low.state.threads.iter_mut().for_each(|thread| thread.priority %= 16);
        let mut high = Display { state: raised(&low.state, raise), ..Display::fresh() };
        for _ in 0..200 {
            let event = events::next(&mut rng, &low.state, &low.words);
            let [event, other] = by_both(event, raise);
            checks.equal("other numbers", high.report(other), low.report(event));
            let same = high.state == raised(&low.state, raise) && high.words == low.words;
            checks.holds("other numbers, left", same);
        }
    }
}

fn raised(state: &State, raise: fn(u8) -> u8) -> State {
    let mut state = state.clone();
    state.threads.iter_mut().for_each(|thread| thread.priority = raise(thread.priority));
    state
}

/// An event with a low priority and with one in its place; above 31 both are refused.
fn by_both(event: Event, raise: fn(u8) -> u8) -> [Event; 2] {
    match event {
        Event::SetPriority { process, index, priority } if priority < 32 => {
            let low = priority % 16;
            [low, raise(low)].map(|priority| s::set_priority((process, index), priority))
        }
        _ => [event; 2],
    }
}

/// Most of a random script's wakes that have a choice meet different priorities, and
/// some meet equals alone.
fn frequent_in_scripts(checks: &mut Checks) {
    let mut bytes = Vec::new();
    checks.holds("random script", random::write(77, 20000, &mut bytes).is_ok());
    let (mut mixed, mut equal) = (0, 0);
    let mut machine = Machine::fresh();
    let mut place = 0;
    while let Some((record, next)) = script::read(&bytes, place) {
        if let Record::Event(Event::Call(call)) = record {
            if machine.lent == WORDS && machine.state.rules_hold() {
                let found = pairs::candidates(&machine.state, &call);
                let priority = |&t: &u8| machine.state.threads[t as usize].priority;
                let differ = found.windows(2).any(|two| priority(&two[0]) != priority(&two[1]));
                mixed += differ as u64;
                equal += (found.len() > 1 && !differ) as u64;
            }
        }
        checks.holds("random script", machine.apply(&record, &mut std::io::sink()).is_ok());
        place = next;
    }
    checks.holds(&format!("mixed {mixed}, equal {equal}"), mixed > 2 * equal);
    checks.holds(&format!("equal {equal}"), equal >= 200);
}

/// What a log's events answer by one order.
fn answers(events: &[Event], order: Order) -> Vec<String> {
    let mut display = Display::fresh();
    let mut lines = Vec::new();
    for event in events {
        let (state, words) = (&display.state, &display.words);
        let (report, state, words) = declared::outcome_by(order, state, words, event);
        lines.push(report.answer.to_string());
        display = Display { state, words };
    }
    lines
}

/// The log to read, all those that are made to show the order and all long ones with
/// priorities answer otherwise by arrival; those without priorities answer the same.
fn shown_by_logs(checks: &mut Checks) {
    let differs = |log: &&Vec<u8>| {
        let (events, _) = one_go(log);
        answers(&events, Order::Priority) != answers(&events, Order::Arrival)
    };
    let logs = logs::edges();
    checks.holds("the log to read", differs(&&logs[0]));
    let (without, with) = logs[1..].split_at(logs::without_priorities().len());
    checks.holds("logs without priorities", !without.iter().any(|log| differs(&log)));
    let long = || with.iter().filter(|log| log.len() > 1000);
    checks.equal("long logs", (long().count(), long().filter(differs).count()), (7, 7));
    let made = &with[with.len() - 7..];
    checks.equal("logs made for it", made.iter().filter(differs).count(), 7);
}
