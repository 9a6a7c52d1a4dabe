//! Scripts of cut logs: what each command prints, bad scripts, the made cuts
//! and the made states.

use super::logs::record;
use super::{one_go, text, Checks};
use crate::cuts::{self, Script, Seen, LONGEST_LOG};
use crate::generate::cuts::{add, states};
use crate::generate::logs;
use crate::model::Event;
use crate::rng::Rng;
use crate::shorthand as s;

pub fn run(checks: &mut Checks) {
    sums(checks);
    printing(checks);
    bad_scripts(checks);
    made_cuts(checks);
    made_states(checks);
}

fn printed(mut script: &[u8]) -> String {
    let mut out = Vec::new();
    match cuts::run(&mut script, &mut out) {
        Ok(()) => text(&out),
        Err(error) => error.to_string(),
    }
}

fn sum(events: &[Event]) -> u64 {
    let mut seen = Seen::nothing();
    events.iter().for_each(|event| seen.add(event));
    seen.sum
}

/// Sums found by hand, and sums of random events found from their records'
/// bytes.
fn sums(checks: &mut Checks) {
    checks.equal("no event", sum(&[]), 0);
    checks.equal("interrupt", sum(&[s::interrupt((1, 2))]), (4 << 14) ^ (1 << 7) ^ 2);
    checks.equal("store", sum(&[s::store(1, 2, 3)]), (2 << 21) ^ (1 << 14) ^ (2 << 7) ^ 3);
    checks.equal("clock", sum(&[s::clock(u64::MAX)]), !(3 << 7));
    let set = s::set_priority((1, 2), 3);
    checks.equal("set priority", sum(&[set]), (5 << 21) ^ (1 << 14) ^ (2 << 7) ^ 3);
    checks.equal(
        "turned",
        sum(&[s::clock(1 << 63), s::clock(0)]),
        (1 << 13) ^ (3 << 21) ^ (3 << 7),
    );
    let (events, _) = one_go(&logs::whole(&mut Rng::new(3), 500));
    for event in events {
        checks.equal("by bytes", sum(&[event]), sum_of_record(&record(&event)));
    }
}

fn sum_of_record(record: &[u8]) -> u64 {
    let widths: &[usize] = match record[0] {
        1 => &[1, 1, 1, 4, 4, 4, 1, 8, 4, 4],
        2 => &[1, 1, 4, 4],
        3 => &[1, 8],
        4 => &[1, 1, 1],
        _ => &[1, 1, 1, 1],
    };
    let (mut sum, mut rest) = (0u64, record);
    for &width in widths {
        let (number, behind) = rest.split_at(width);
        let number = number.iter().rev().fold(0, |high, &byte| high << 8 | u64::from(byte));
        sum = sum.rotate_left(7) ^ number;
        rest = behind;
    }
    sum
}

fn printing(checks: &mut Checks) {
    let mut script = b"PaaaaaaaaO".to_vec();
    script[1..9].fill(0);
    script.extend(b"NL\x05\0\0\0\x04\x01\x02\x04\x03P\0\0\0\0\x05\0\0\0O");
    script.extend([b'S', 3, 0]);
    script.extend([0; 31]);
    script.extend(b"P\0\0\0\0\x05\0\0\0");
    script.extend([b'S', 0, 1, 4]);
    script.extend([1; 30]);
    script.extend(b"O");
    let none = "0".repeat(16);
    let zeros = "00".repeat(29);
    let cut = format!("0 {none} -61 03000000{zeros}\n");
    let want = [
        format!("0 {none} more 00000000{zeros}\n"),
        format!("0 {none} end 01000000{zeros}\n"),
        format!("1 0000000000010082 more 00020403{zeros}\n"),
        cut.clone(),
        cut,
        format!("0 {none} -71 000104{}\n", "01".repeat(30)),
    ];
    checks.equal("printing", printed(&script), want.concat());
    checks.equal("empty script", printed(&[]), String::new());
}

fn piece(from: u8, to: u8) -> [u8; 9] {
    [b'P', from, 0, 0, 0, to, 0, 0, 0]
}

fn bad_scripts(checks: &mut Checks) {
    let log = b"L\x03\0\0\0\x04\0\0";
    let mut state = vec![b'S'];
    state.extend([0; 33]);
    for command in [&log[..], &state, &piece(0, 0)] {
        let lines = if command[0] == b'P' { 1 } else { 0 };
        checks.equal("whole", printed(command).lines().count(), lines);
        for cut in 1..command.len() {
            checks.equal("cut script", printed(&command[..cut]), "bad script\n".into());
        }
    }
    for (from, to, good) in
        [(0, 3, true), (3, 3, true), (2, 1, false), (0, 4, false), (4, 4, false)]
    {
        let script = [&log[..], &piece(from, to)].concat();
        checks.equal("places", printed(&script) != "bad script\n", good);
    }
    for ended in 0..=255 {
        state[1] = ended;
        checks.equal("ended", printed(&state).is_empty(), ended <= 3);
    }
    for kind in (0..=255).filter(|kind| !b"LNSPO".contains(kind)) {
        checks.equal("unknown", printed(&[b'N', kind, b'O']), "bad script\n".into());
    }
    for (length, want) in [(LONGEST_LOG, ""), (LONGEST_LOG + 1, "bad script\n")] {
        let mut script = Vec::new();
        let made = Script { out: &mut script }.log(&vec![0; length]);
        checks.holds("made", made.is_ok());
        checks.equal("log length", printed(&script), want.into());
    }
}

/// A log is cut in two at every byte and into single bytes.
fn made_cuts(checks: &mut Checks) {
    for log in logs::edges().iter().filter(|log| log.len() <= 45) {
        let mut script = Vec::new();
        let made = add(log, &mut Rng::new(1), &mut Script { out: &mut script });
        checks.holds("made", made.is_ok());
        checks.holds("good", !printed(&script).contains("bad script"));
        let length = log.len() as u8;
        let there = |command: &[u8]| script.windows(command.len()).any(|part| part == command);
        for cut in 0..=length {
            let both = [piece(0, cut), piece(cut, length)];
            checks.holds("every cut", there(&both[0]) && there(&both[1]));
        }
        let mut singles = vec![b'N'];
        singles.extend((0..length).flat_map(|place| piece(place, place + 1)));
        singles.push(b'O');
        checks.holds("single bytes", there(&singles));
    }
}

/// The made states lead to three lines each, and to every answer.
fn made_states(checks: &mut Checks) {
    let mut script = Vec::new();
    let made = states::add(&mut Rng::new(1), &mut Script { out: &mut script });
    checks.holds("made", made.is_ok());
    let lines = printed(&script);
    checks.equal("three lines a state", lines.lines().count() % 3, 0);
    for answer in [" more ", " end ", " -71 ", " -61 "] {
        let times = lines.lines().filter(|line| line.contains(answer)).count();
        checks.holds(&format!("{answer} is frequent, {times}"), times >= 100);
    }
}
