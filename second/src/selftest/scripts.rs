//! Scripts: what each record prints, bad scripts, and the made scripts.

use super::{declared, Checks};
use crate::generate::{edges, random};
use crate::model::State;
use crate::script::{self, Machine, Record, Script, MEMORY};
use crate::shorthand as s;

pub fn run(checks: &mut Checks) {
    printing(checks);
    bad_scripts(checks);
    pokes(checks);
    let edges = edges::script();
    holds_throughout(checks, "edges", &edges);
    checks.holds("edges are fixed", edges == edges::script());
    let mut bytes = Vec::new();
    let written = random::write(7, 5000, &mut bytes);
    checks.holds("random script", written.is_ok());
    holds_throughout(checks, "random", &bytes);
}

fn printed(bytes: &[u8]) -> String {
    let mut out = Vec::new();
    match script::run(bytes, &mut out) {
        Ok(()) => String::from_utf8_lossy(&out).into_owned(),
        Err(error) => error.to_string(),
    }
}

fn printing(checks: &mut Checks) {
    let mut script = Script::default();
    script.events(&[s::store(0, 8, 5), s::wait_for((0, 1), 8, 5, 9), s::store(0, 9, 5)]);
    script.events(&[s::query(0), s::set_priority((0, 1), 31), s::set_priority((7, 7), 32)]);
    script.events(&[s::set_priority((7, 6), 1), s::set_priority((7, 6), 0)]);
    script.event(s::set_priority((7, 7), 2));
    script.word(0, 8);
    script.word(8, 0);
    script.word(255, u32::MAX);
    script.lend(0);
    script.event(s::clock(1));
    script.dump();
    let list = "list 0:1";
    let threads = "thread 1 1 8 4294967295 1 9 0 31\nthread 63 0 0 0 0 0 0 2";
    let sets = "0\n-22 reason 8\n0\n0\n0";
    let events = format!("0\nasleep\n-22 reason 4\n2 1 1\n{sets}\n5\n0\n0\n-6");
    let want = format!("{events}\nclock 0 count 1\n{list}\n{threads}\n");
    checks.equal("printing", printed(&script.bytes), want);
    checks.equal("empty script", printed(&[]), String::new());
}

fn bad_scripts(checks: &mut Checks) {
    let mut script = Script::default();
    script.event(s::clock(1));
    script.add(Record::Poke { field: 1, index: 0, value: 65 });
    for (cut, want) in
        [(1, "bad script\n"), (8, "bad script\n"), (9, "0\n"), (12, "0\nbad script\n")]
    {
        checks.equal("cut script", printed(&script.bytes[..cut]), want.into());
    }
    // The search of request (v) was S.
    for kind in [0, 6, b'S', 255] {
        checks.equal("unknown kind", printed(&[b'F', kind]), "bad script\n".into());
    }
    checks.equal("cut kind 5", printed(&[5, 0, 0]), "bad script\n".into());
    for (field, want) in [(9, ""), (10, "bad script\n"), (255, "bad script\n")] {
        let mut script = Script::default();
        script.add(Record::Poke { field, index: 0, value: 0 });
        checks.equal("field", printed(&script.bytes), want.into());
    }
    script.lend(MEMORY + 1);
    checks.equal("too much memory", printed(&script.bytes), "0\nbad script\n".into());
}

/// Pokes are cut to the field's width, and the index too.
fn pokes(checks: &mut Checks) {
    let mut machine = Machine::fresh();
    let mut poke = |field, index, value| {
        let record = Record::Poke { field, index, value };
        checks.holds("poke", machine.apply(&record, &mut std::io::sink()).is_ok());
    };
    for field in 0..=9 {
        poke(field, 66, u64::MAX);
    }
    let (state, thread) = (&machine.state, machine.state.threads[2]);
    checks.equal("clock and count", (state.clock, state.count), (u64::MAX, u64::MAX));
    checks.equal("list", state.list[2], 255);
    checks.equal("flags", (thread.waiting, thread.timed, thread.last), (true, true, 3));
    checks.equal("numbers", (thread.uaddr, thread.bitset), (u32::MAX, u32::MAX));
    checks.equal("deadline", thread.deadline, u64::MAX);
    checks.equal("priority", thread.priority, 255);
}

/// Runs a made script: it is read to its end, is written back the same, and
/// every event does what the rules said the other way want.
fn holds_throughout(checks: &mut Checks, name: &str, bytes: &[u8]) {
    let mut machine = Machine::fresh();
    let mut place = 0;
    let mut copy = Vec::new();
    while let Some((record, next)) = script::read(bytes, place) {
        script::write(&record, &mut copy);
        let want = wanted(&machine, &record);
        let mut out = Vec::new();
        checks.holds(name, machine.apply(&record, &mut out).is_ok());
        if let Some((line, state, words)) = want {
            checks.equal(name, String::from_utf8_lossy(&out).as_ref(), &format!("{line}\n"));
            let same = machine.state == state && machine.memory[..machine.lent] == words[..];
            checks.holds(name, same);
        }
        place = next;
    }
    checks.equal(name, place, bytes.len());
    checks.holds(name, copy == bytes);
}

/// What an event must print and leave.
fn wanted(machine: &Machine, record: &Record) -> Option<(String, State, Vec<u32>)> {
    let Record::Event(event) = record else {
        return None;
    };
    let words = &machine.memory[..machine.lent];
    let (report, state, words) = declared::outcome(&machine.state, words, event);
    Some((report.to_string(), state, words))
}
