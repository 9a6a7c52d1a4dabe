//! The program over the second kernel: it replays logs, runs test scripts and
//! cuts logs, and makes what these need.

use std::io::{self, BufWriter, Read, Write};
use std::process::ExitCode;
use std::time::Instant;

use second::generate::{cuts, edges, events, logs, random};
use second::model::{self, State, WORDS};
use second::rng::Rng;
use second::{replay, script, selftest};

const USAGE: &str = "usage:
  second replay < LOG
  second replay-unchecked < LOG
  second run-script < SCRIPT
  second run-cuts < SCRIPT
  second make-script edges
  second make-script faults
  second make-script random SEED N
  second make-log sample SEED N
  second make-log long SEED BYTES
  second make-log damaged SEED
  second make-log story
  second make-logs FOLDER
  second make-cuts SEED
  second selftest
  second speed SEED N";

fn main() -> ExitCode {
    let arguments: Vec<String> = std::env::args().skip(1).collect();
    let arguments: Vec<&str> = arguments.iter().map(String::as_str).collect();
    match run(&arguments) {
        Ok(code) => code,
        Err(error) => {
            eprintln!("{error}");
            ExitCode::FAILURE
        }
    }
}

fn run(arguments: &[&str]) -> io::Result<ExitCode> {
    let mut out = BufWriter::new(io::stdout().lock());
    match *arguments {
        ["replay"] => replay::run(&mut io::stdin().lock(), &mut out)?,
        ["replay-unchecked"] => replay::run_unchecked(&mut io::stdin().lock(), &mut out)?,
        ["run-script"] => script::run(&input()?, &mut out)?,
        ["run-cuts"] => second::cuts::run(&mut io::stdin().lock(), &mut out)?,
        ["make-script", "edges"] => out.write_all(&edges::script())?,
        ["make-script", "faults"] => out.write_all(&edges::faults())?,
        ["make-script", "random", seed, n] => random::write(number(seed)?, number(n)?, &mut out)?,
        ["make-log", "sample", seed, n] => {
            out.write_all(&logs::whole(&mut Rng::new(number(seed)?), number(n)?))?;
        }
        ["make-log", "long", seed, bytes] => {
            logs::write_long(&mut Rng::new(number(seed)?), number(bytes)?, &mut out)?;
        }
        ["make-log", "damaged", seed] => {
            out.write_all(&logs::damaged(&mut Rng::new(number(seed)?), 30))?;
        }
        ["make-log", "story"] => out.write_all(&logs::story())?,
        ["make-logs", folder] => {
            for (number, log) in logs::edges().iter().enumerate() {
                std::fs::write(format!("{folder}/{number}"), log)?;
            }
        }
        ["make-cuts", seed] => cuts::write(&mut Rng::new(number(seed)?), &mut out)?,
        ["selftest"] => {
            drop(out);
            return Ok(selftest());
        }
        ["speed", seed, n] => writeln!(out, "{}", speed(number(seed)?, number(n)?))?,
        _ => {
            eprintln!("{USAGE}");
            return Ok(ExitCode::from(2));
        }
    }
    out.flush()?;
    Ok(ExitCode::SUCCESS)
}

fn input() -> io::Result<Vec<u8>> {
    let mut bytes = Vec::new();
    io::stdin().lock().read_to_end(&mut bytes)?;
    Ok(bytes)
}

fn number(text: &str) -> io::Result<u64> {
    text.parse().map_err(|_| io::Error::other(format!("not a number: {text}")))
}

fn selftest() -> ExitCode {
    let checks = selftest::run();
    println!("{} passed, {} failed", checks.passed, checks.failed);
    if checks.failed == 0 {
        ExitCode::SUCCESS
    } else {
        ExitCode::FAILURE
    }
}

/// Events of one history before the next starts from fresh tables: in a long
/// one the clock comes to its end, and no timed wait sleeps any more.
const HISTORY: usize = 1000;

/// Makes histories first, then times `step` alone over them.
fn speed(seed: u64, count: u64) -> String {
    let mut rng = Rng::new(seed);
    let (mut state, mut words) = (State::fresh(), vec![0; WORDS]);
    let mut all = Vec::new();
    while (all.len() as u64) < count {
        if all.len() % HISTORY == 0 {
            state = State::fresh();
        }
        let event = events::next(&mut rng, &state, &words);
        model::step(&mut state, &mut words, &event);
        all.push(event);
    }
    words.fill(0);
    let start = Instant::now();
    for history in all.chunks(HISTORY) {
        state = State::fresh();
        for event in history {
            model::step(&mut state, &mut words, event);
        }
    }
    let seconds = start.elapsed().as_secs_f64();
    assert!(state.rules_hold(), "sound tables must stay sound");
    format!("{count} events in {seconds:.3} s, {:.0} a second", count as f64 / seconds)
}
