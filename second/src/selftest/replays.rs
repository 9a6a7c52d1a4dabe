//! Replays: the text of logs that come in one go and in pieces, and long logs.

use std::io::{self, ErrorKind, Read};

use super::{one_go, replayed, text, Checks, Display};
use crate::generate::logs;
use crate::pieces::Ended;
use crate::replay::{self, PIECE};
use crate::rng::Rng;

pub fn run(checks: &mut Checks) {
    checks.equal("empty log", replayed(&[]), String::new());
    checks.equal("bad kind", replayed(&[0]), "-71\n".into());
    checks.equal("cut", replayed(&[4, 0, 0, 2]), "0\n-61\n".into());
    any_length(checks);
    around_a_piece(checks);
    as_one_by_one(checks);
    long_logs(checks);
}

/// No length is too long: whole interrupts, and the last one cut.
fn any_length(checks: &mut Checks) {
    for length in [PIECE - 1, PIECE, PIECE + 1, 65535, 65536, 65537, 1_000_000] {
        let cut = if length % 3 > 0 { "-61\n" } else { "" };
        let want = "0\n".repeat(length / 3) + cut;
        checks.holds("any length", replayed(&vec![4; length]) == want);
    }
}

/// The long logs among those that a replay is tried on: their lengths and ends.
fn around_a_piece(checks: &mut Checks) {
    let logs = logs::edges();
    let long = logs.iter().filter(|log| log.len() > PIECE / 2);
    let got: Vec<_> = long.map(|log| (log.len(), one_go(log).1)).collect();
    let want = vec![
        (PIECE - 1, Ended::Clean),
        (PIECE, Ended::Clean),
        (PIECE + 1, Ended::Clean),
        (PIECE + 61, Ended::Clean),
        (PIECE + 11, Ended::Cut),
        (PIECE + 43, Ended::Unreadable),
        (PIECE + 15, Ended::Clean),
    ];
    checks.equal("around a piece", got, want);
}

/// Gives a log in random pieces, with a signal now and then.
struct Link<'a> {
    rng: Rng,
    rest: &'a [u8],
}

impl Read for Link<'_> {
    fn read(&mut self, room: &mut [u8]) -> io::Result<usize> {
        if self.rng.percent(20) {
            return Err(ErrorKind::Interrupted.into());
        }
        let length = (1 + self.rng.below(100) as usize).min(room.len());
        self.rest.read(&mut room[..length])
    }
}

/// The replay prints what the events of the log in one go answer, and then its
/// refusal, however the log comes.
fn as_one_by_one(checks: &mut Checks) {
    for (seed, log) in logs::edges().iter().enumerate() {
        let (events, ended) = one_go(log);
        let mut display = Display::fresh();
        let mut want: Vec<String> = events.iter().map(|event| display.text(*event)).collect();
        if ended != Ended::Clean {
            want.push(ended.to_string());
        }
        let want: String = want.iter().map(|line| format!("{line}\n")).collect();
        checks.holds("in one go", replayed(log) == want);
        let mut out = Vec::new();
        let done = replay::run_unchecked(&mut &log[..], &mut out);
        checks.holds("unchecked", done.is_ok() && text(&out) == want);
        let mut link = Link { rng: Rng::new(seed as u64), rest: log };
        let mut out = Vec::new();
        let done = replay::run(&mut link, &mut out);
        checks.holds("over a link", done.is_ok() && text(&out) == want);
    }
}

/// A long log has its length, reads to its end, and still sleeps, wakes and
/// times out in its second half.
fn long_logs(checks: &mut Checks) {
    for length in [0, 1, 31, 1000, 65536, 1 << 20] {
        let mut log = Vec::new();
        checks.holds("long", logs::write_long(&mut Rng::new(length), length, &mut log).is_ok());
        let beyond = log.len() as u64 - length;
        checks.holds("its length", if length == 0 { log.is_empty() } else { beyond < 32 });
        let (events, ended) = one_go(&log);
        checks.equal("clean", ended, Ended::Clean);
        let lines = replayed(&log);
        checks.equal("lines", lines.lines().count(), events.len());
        if length == 1 << 20 {
            let late: Vec<&str> = lines.lines().skip(events.len() / 2).collect();
            for answer in ["asleep", "-110", "-11", "-14", "-16", "-22", "-38", "-3", "0", "1", "2"]
            {
                let times = late.iter().filter(|line| **line == answer).count();
                checks.holds(&format!("{answer} is frequent, {times}"), times >= 100);
            }
        }
    }
}
