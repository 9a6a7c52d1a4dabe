//! The rules of document 01 and requests (i), (ii), (vi) and (vii) of document 02
//! said once more, in another way: refusals as the table of answers, reasons as a
//! set, effects as sets of threads taken from queues, WAKE_OP's signed numbers by
//! moving their bits, a priority as what no sleep and no waking names, the order of
//! taking by counting who goes before whom. It builds whole new tables and words,
//! to be compared with what `step` left behind.

use std::collections::BTreeSet;

use crate::model::{Answer, Call, Event, Report, State, Thread, THREADS, WORDS};

type Outcome = (Report, State, Vec<u32>);

/// By what sleepers are taken: as request (vii) has it, or as it was before.
#[derive(Clone, Copy, PartialEq, Eq)]
pub enum Order {
    Priority,
    Arrival,
}

/// What an event must report and leave behind.
pub fn outcome(state: &State, words: &[u32], event: &Event) -> Outcome {
    outcome_by(Order::Priority, state, words, event)
}

/// The same by either order.
pub fn outcome_by(order: Order, state: &State, words: &[u32], event: &Event) -> Outcome {
    if let Event::Query { process } = *event {
        return (Report::plain(panel(state, process)), state.clone(), words.to_vec());
    }
    if let Some(number) = refusal(state, words, event) {
        let reason = if number == -22 { lowest_reason(event) } else { 0 };
        let report = Report { answer: Answer::Number(number), reason };
        return (report, state.clone(), words.to_vec());
    }
    let (mut after, mut new_words) = (state.clone(), words.to_vec());
    let answer = match *event {
        Event::Call(ref call) => effect(order, state, &mut after, &mut new_words, call),
        Event::Store { process, address, value } => {
            new_words[word(process, address)] = value;
            Answer::Number(0)
        }
        Event::Clock { time } => {
            after.clock = time;
            let over = |&t: &usize| state.threads[t].timed && state.threads[t].deadline <= time;
            let ended: Vec<usize> = queue(state).into_iter().filter(over).collect();
            end(&mut after, &ended, 2)
        }
        Event::Interrupt { process, index } => {
            let target = 8 * process as usize + index as usize;
            let ended: Vec<usize> = queue(state).into_iter().filter(|&t| t == target).collect();
            end(&mut after, &ended, 3)
        }
        Event::SetPriority { process, index, priority } => {
            let named = |t: usize| t / 8 == process as usize && t % 8 == index as usize;
            let threads = after.threads.iter_mut().enumerate();
            threads.filter(|(t, _)| named(*t)).for_each(|(_, thread)| thread.priority = priority);
            Answer::Number(0)
        }
        Event::Query { .. } => unreachable!(),
    };
    (Report::plain(answer), after, new_words)
}

fn panel(state: &State, process: u8) -> Answer {
    if process > 7 || !sound(state) {
        return Answer::Panel(0, 0, 8);
    }
    let own = queue(state).into_iter().filter(|t| t / 8 == process as usize);
    let own: Vec<usize> = own.map(|t| t % 8).collect();
    let bits = own.iter().map(|t| 1u8 << t).sum();
    Answer::Panel(bits, own.len() as u32, own.iter().min().map_or(8, |&t| t as u32))
}

fn word(process: u8, address: u32) -> usize {
    1024 * process as usize + address as usize / 4
}

/// The whole arrival list.
fn queue(state: &State) -> Vec<usize> {
    state.list[..state.count as usize].iter().map(|&entry| entry as usize).collect()
}

/// The queue of one word.
fn queue_at(state: &State, process: u8, address: u32) -> Vec<usize> {
    let here = |t: &usize| *t / 8 == process as usize && state.threads[*t].uaddr == address;
    queue(state).into_iter().filter(here).collect()
}

/// Those of a queue whose turns are `from` up to, but not, `to`, one turn after
/// another. Nothing is sorted: a sleeper's turn is how many others go before it.
fn with_turns(order: Order, state: &State, here: &[usize], turns: (usize, usize)) -> Vec<usize> {
    let (from, to) = (turns.0.min(here.len()), turns.1.min(here.len()));
    if order == Order::Arrival {
        return here[from..to].to_vec();
    }
    let priority = |place: usize| state.threads[here[place]].priority;
    let turn = |place: usize| {
        let earlier = (0..place).filter(|&other| priority(other) >= priority(place)).count();
        let later = (place..here.len()).filter(|&other| priority(other) > priority(place)).count();
        earlier + later
    };
    let whose = |wanted: usize| (0..here.len()).find(|&place| turn(place) == wanted);
    (from..to).filter_map(whose).map(|place| here[place]).collect()
}

/// The table rules, by counting instead of marking.
fn sound(state: &State) -> bool {
    if state.count > 64 {
        return false;
    }
    let listed = queue(state);
    let times = |t: usize| listed.iter().filter(|&&entry| entry == t).count();
    let rest = &state.list[state.count as usize..];
    listed.iter().all(|&entry| entry < THREADS)
        && rest.iter().all(|&entry| entry == 255)
        && (0..THREADS).all(|t| times(t) == state.threads[t].waiting as usize)
        && state.threads.iter().all(|t| sound_record(t, state.clock))
}

fn sound_record(thread: &Thread, clock: u64) -> bool {
    let Thread { waiting, uaddr, bitset, timed, deadline, last, priority } = *thread;
    let zeros = (uaddr, bitset, timed, deadline) == (0, 0, false, 0);
    let aligned = (0..4096).step_by(4).any(|address| address == uaddr);
    let ahead = (!timed && deadline == 0) || (timed && deadline > clock);
    last < 4 && priority < 32 && if waiting { aligned && bitset > 0 && ahead } else { zeros }
}

/// The first row that applies. Later rows are asked only if no earlier one
/// applied, so they may count on it.
fn refusal(state: &State, words: &[u32], event: &Event) -> Option<i32> {
    if words.len() != WORDS {
        return Some(-6);
    }
    if !sound(state) {
        return Some(-9);
    }
    match *event {
        Event::Call(ref call) => call_refusal(state, words, call),
        Event::Store { process, .. } if process > 7 => Some(-3),
        Event::Store { address, .. } if address & 3 != 0 => Some(-22),
        Event::Store { address, .. } if address > 4092 => Some(-14),
        Event::Clock { time } if time < state.clock => Some(-22),
        Event::Interrupt { process, index } if process > 7 || index > 7 => Some(-3),
        Event::SetPriority { process, index, .. } if process > 7 || index > 7 => Some(-3),
        Event::SetPriority { priority, .. } if priority >> 5 != 0 => Some(-22),
        _ => None,
    }
}

fn call_refusal(state: &State, words: &[u32], call: &Call) -> Option<i32> {
    let command = call.op & !128;
    let caller = 8 * call.process as usize + call.index as usize;
    let two = [3, 4, 5].contains(&command);
    let wait = [0, 9].contains(&command);
    let used: &[u32] = if two { &[call.uaddr, call.uaddr2] } else { &[call.uaddr] };
    let (op, cmp) = (call.val3 >> 28 & 7, call.val3 >> 24 & 15);
    let argument = (!wait && call.val >> 31 == 1)
        || (two && call.timeout >> 31 & 1 == 1)
        || ([9, 10].contains(&command) && call.val3 == 0)
        || used.iter().any(|address| address & 3 != 0)
        || ([3, 4].contains(&command) && call.uaddr == call.uaddr2);
    let differs = |expected| words[word(call.process, call.uaddr)] != expected;
    // -12 has no row, for it never comes (`never`).
    let rows: [(i32, &dyn Fn() -> bool); 8] = [
        (-3, &|| call.process > 7 || call.index > 7),
        (-16, &|| state.threads[caller].waiting),
        (-38, &|| ![0, 1, 3, 4, 5, 9, 10].contains(&command)),
        (-22, &|| argument),
        (-14, &|| used.iter().any(|&address| address > 4095)),
        (-38, &|| command == 5 && (op > 4 || cmp > 5)),
        (-11, &|| (wait && differs(call.val)) || (command == 4 && differs(call.val3))),
        (-110, &|| wait && deadline(state, call).is_some_and(|d| d <= state.clock as u128)),
    ];
    rows.iter().find(|(_, applies)| applies()).map(|(number, _)| *number)
}

/// The lowest of the reasons that apply to an event that is -22. The row of
/// -22 doesn't use them, so a -22 for which none applies comes to light.
fn lowest_reason(event: &Event) -> u8 {
    let applying: BTreeSet<u8> = match *event {
        Event::Call(ref call) => own_reasons(call.op & !128)
            .iter()
            .copied()
            .filter(|&reason| looks_wrong(call, reason))
            .collect(),
        // These three have one argument rule each.
        Event::Store { .. } => BTreeSet::from([4]),
        Event::Clock { .. } => BTreeSet::from([7]),
        Event::SetPriority { .. } => BTreeSet::from([8]),
        _ => BTreeSet::new(),
    };
    applying.first().copied().unwrap_or(0)
}

/// The reasons that a command can have.
fn own_reasons(command: u32) -> &'static [u8] {
    match command {
        0 => &[4],
        1 => &[1, 4],
        3 | 4 => &[1, 2, 4, 5, 6],
        5 => &[1, 2, 4, 5],
        9 => &[3, 4],
        10 => &[1, 3, 4],
        _ => &[],
    }
}

/// Whether the argument of a reason is wrong, if it is in use at all. As signed
/// numbers the caps that are too high are those below 0.
fn looks_wrong(call: &Call, reason: u8) -> bool {
    match reason {
        1 => (call.val as i32) < 0,
        2 => (call.timeout as i32) < 0,
        3 => call.val3.count_ones() == 0,
        4 => call.uaddr / 4 * 4 != call.uaddr,
        5 => call.uaddr2 / 4 * 4 != call.uaddr2,
        _ => call.uaddr ^ call.uaddr2 == 0,
    }
}

/// The deadline of a wait, in a width where no sum can wrap.
fn deadline(state: &State, call: &Call) -> Option<u128> {
    let from = if call.op & 9 == 9 { 0 } else { state.clock as u128 };
    (call.flag > 0).then_some((from + call.timeout as u128).min(u64::MAX as u128))
}

/// Takes threads off the list and lets them run with a last answer.
fn end(after: &mut State, ended: &[usize], last: u8) -> Answer {
    for &t in ended {
        let thread = &mut after.threads[t];
        (thread.waiting, thread.last) = (false, last);
        (thread.uaddr, thread.bitset) = (0, 0);
        (thread.timed, thread.deadline) = (false, 0);
    }
    let left: Vec<usize> = queue(after).into_iter().filter(|t| !ended.contains(t)).collect();
    set_list(after, &left);
    Answer::Number(ended.len() as i32)
}

fn set_list(after: &mut State, listed: &[usize]) {
    after.list = std::array::from_fn(|place| listed.get(place).map_or(255, |&t| t as u8));
    after.count = listed.len() as u64;
}

/// A call that no row refuses.
fn effect(
    order: Order,
    state: &State,
    after: &mut State,
    words: &mut [u32],
    call: &Call,
) -> Answer {
    let mut here = queue_at(state, call.process, call.uaddr);
    match call.op & !128 {
        0 | 9 => fall_asleep(after, call),
        1 => end(after, &with_turns(order, state, &here, (0, call.val as usize)), 1),
        10 => {
            here.retain(|&t| state.threads[t].bitset & call.val3 != 0);
            end(after, &with_turns(order, state, &here, (0, call.val as usize)), 1)
        }
        5 => wake_op(order, state, after, words, call),
        command => {
            let last = call.val as usize + call.timeout as u32 as usize;
            let released = with_turns(order, state, &here, (0, call.val as usize));
            let moved = with_turns(order, state, &here, (call.val as usize, last));
            requeue(after, &released, &moved, call.uaddr2);
            let counted = if command == 4 { moved.len() } else { 0 };
            Answer::Number((released.len() + counted) as i32)
        }
    }
}

fn fall_asleep(after: &mut State, call: &Call) -> Answer {
    let caller = 8 * call.process as usize + call.index as usize;
    let deadline = deadline(after, call);
    let thread = &mut after.threads[caller];
    thread.waiting = true;
    thread.uaddr = call.uaddr;
    thread.bitset = if call.op & 9 == 9 { call.val3 } else { !0 };
    thread.timed = deadline.is_some();
    thread.deadline = deadline.map_or(0, |time| time as u64);
    let listed = [queue(after), vec![caller]].concat();
    set_list(after, &listed);
    Answer::Asleep
}

fn requeue(after: &mut State, released: &[usize], moved: &[usize], address: u32) {
    end(after, released, 1);
    let mut listed: Vec<usize> = queue(after);
    listed.retain(|t| !moved.contains(t));
    listed.extend(moved);
    set_list(after, &listed);
    for &t in moved {
        after.threads[t].uaddr = address;
    }
}

fn wake_op(
    order: Order,
    state: &State,
    after: &mut State,
    words: &mut [u32],
    call: &Call,
) -> Answer {
    let place = word(call.process, call.uaddr2);
    let old = words[place];
    words[place] = new_word(old, call.val3);
    let here = queue_at(state, call.process, call.uaddr);
    let mut ended = with_turns(order, state, &here, (0, call.val as usize));
    if compares_true(old, call.val3) {
        let mut there = queue_at(state, call.process, call.uaddr2);
        there.retain(|t| !ended.contains(t));
        ended.extend(with_turns(order, state, &there, (0, call.timeout as u32 as usize)));
    }
    end(after, &ended, 1)
}

/// 12 bits of val3, from a bit on, as a signed number: they go to the top of
/// the 32 and come back with their sign.
fn signed_field(val3: u32, lowest: u32) -> i32 {
    (val3 << (20 - lowest)) as i32 >> 20
}

/// What a WAKE_OP stores, in a width where no sum can wrap.
fn new_word(old: u32, val3: u32) -> u32 {
    let old = old as u64;
    let power = val3 >> 31 == 1;
    // The last five bits of oparg are oparg modulo 32.
    let operand =
        if power { 2u64.pow(val3 >> 12 & 31) } else { signed_field(val3, 12) as u32 as u64 };
    let new = match val3 >> 28 & 7 {
        0 => operand,
        1 => old + operand,
        2 => old | operand,
        3 => (old | operand) - operand,
        _ => (old | operand) - (old & operand),
    };
    new as u32
}

/// Whether a WAKE_OP goes on to the second word's sleepers.
pub fn compares_true(old: u32, val3: u32) -> bool {
    let order = (old as i32).cmp(&signed_field(val3, 0));
    match val3 >> 24 & 15 {
        0 => order.is_eq(),
        1 => order.is_ne(),
        2 => order.is_lt(),
        3 => order.is_le(),
        4 => order.is_gt(),
        _ => order.is_ge(),
    }
}
