//! The log in pieces: any cutting reads as the whole log does, and the states
//! that pieces leave are just those that the reader takes.

use std::collections::HashSet;

use super::logs::{flagged, record};
use super::{one_go, Checks};
use crate::generate::logs;
use crate::model::Event;
use crate::pieces::{Ended, Reader, HELD};
use crate::rng::Rng;
use crate::shorthand as s;

pub fn run(checks: &mut Checks) {
    sentences(checks);
    every_cut(checks);
    random_cuts(checks);
    short_strings(checks);
    every_count(checks);
}

/// The events that a piece gives, and its answer.
fn take(reader: &mut Reader, piece: &[u8]) -> (Vec<Event>, Option<Ended>) {
    let mut events = Vec::new();
    let answer = reader.piece(piece, |event| events.push(*event));
    (events, answer)
}

fn holding(bytes: &[u8]) -> Reader {
    let mut reader = Reader { count: bytes.len() as u8, ..Reader::start() };
    reader.held[..bytes.len()].copy_from_slice(bytes);
    reader
}

fn ended(ended: Ended) -> Reader {
    Reader { ended: Some(ended), ..Reader::start() }
}

/// The sentences of request (iv), one by one.
fn sentences(checks: &mut Checks) {
    let (bad, cut) = (Some(Ended::Unreadable), Some(Ended::Cut));
    let mut reader = Reader::start();
    checks.equal("nothing in a piece", take(&mut reader, &[]), (vec![], None));
    checks.equal("kept", take(&mut reader, &[4, 1]), (vec![], None));
    checks.equal("kept", reader, holding(&[4, 1]));
    checks.equal("nothing in a piece", take(&mut reader, &[]), (vec![], None));
    let want = (vec![s::interrupt((1, 2)), s::interrupt((3, 4))], None);
    checks.equal("completed", take(&mut reader, &[2, 4, 3, 4, 4]), want);
    checks.equal("cut", (Some(reader.over()), reader), (cut, ended(Ended::Cut)));
    checks.equal("cut again", take(&mut reader, &[4, 1, 2]), (vec![], cut));
    checks.equal("cut again", take(&mut reader, &[0]), (vec![], cut));

    let mut reader = Reader::start();
    let want = (vec![s::interrupt((1, 2))], bad);
    checks.equal("a bad kind at once", take(&mut reader, &[4, 1, 2, 9, 4, 1, 2]), want);
    checks.equal("the rest is dropped", reader, ended(Ended::Unreadable));
    checks.equal("over stays -71", Some(reader.over()), bad);
    checks.equal("-71 again", take(&mut reader, &[4, 1, 2]), (vec![], bad));

    let call = record(&flagged(2));
    let mut reader = Reader::start();
    checks.equal("a bad flag is held", take(&mut reader, &call[..31]), (vec![], None));
    checks.equal("a bad flag is held", reader, holding(&call[..31]));
    let mut other = reader;
    checks.equal("cut comes first", other.over(), Ended::Cut);
    checks.equal("a bad flag", take(&mut reader, &[0, 4, 1, 2]), (vec![], bad));
    checks.equal("a bad flag", reader, ended(Ended::Unreadable));

    let mut reader = Reader::start();
    checks.equal("clean end", (reader.over(), reader), (Ended::Clean, ended(Ended::Clean)));
    checks.equal("end again", take(&mut reader, &[4, 1, 2]), (vec![], Some(Ended::Clean)));
    checks.equal("end again", reader.over(), Ended::Clean);
}

/// Whether a log cut at these places, and then over, gives these events and
/// this end. Whatever comes after the end must get the same answer and leave
/// the state.
fn reads_as(log: &[u8], cuts: &[usize], want: &(Vec<Event>, Ended)) -> bool {
    let mut reader = Reader::start();
    let mut all = Vec::new();
    let mut last = None;
    let mut place = 0;
    let mut good = true;
    for &cut in cuts.iter().chain([&log.len()]) {
        let before = reader;
        let (events, answer) = take(&mut reader, &log[place..cut]);
        good &= reader.is_left_by_pieces() && reader.ended == answer;
        if last.is_some() {
            good &= answer == last && events.is_empty() && reader == before;
        }
        all.extend(events);
        last = answer;
        place = cut;
    }
    let over = reader.over();
    good &= last.is_none() || last == Some(over);
    good && (all, over) == *want && answers_forever(reader, over)
}

fn answers_forever(mut reader: Reader, ended: Ended) -> bool {
    let before = reader;
    let pieces = [&[][..], &[4, 1, 2], &[4], &[9]];
    pieces.iter().all(|piece| {
        let again = take(&mut reader, piece) == (vec![], Some(ended)) && reader.over() == ended;
        again && reader == before
    })
}

/// Short logs cut in two at every byte, the shortest ones in three.
fn every_cut(checks: &mut Checks) {
    for log in logs::edges().iter().filter(|log| log.len() <= 300) {
        let want = one_go(log);
        for first in 0..=log.len() {
            checks.holds("every cut", reads_as(log, &[first], &want));
            if log.len() <= 45 {
                let mut seconds = first..=log.len();
                checks.holds(
                    "two cuts",
                    seconds.all(|second| reads_as(log, &[first, second], &want)),
                );
            }
        }
    }
}

/// All logs in single bytes and in random pieces, empty ones among them.
fn random_cuts(checks: &mut Checks) {
    let mut rng = Rng::new(11);
    for log in logs::edges() {
        let want = one_go(&log);
        let singles: Vec<usize> = (0..log.len()).collect();
        checks.holds("single bytes", reads_as(&log, &singles, &want));
        for longest in [2, 40, 5000] {
            let mut cuts = vec![0];
            let mut place = 0;
            while place < log.len() {
                cuts.push(place);
                place += rng.below(longest + 1) as usize;
            }
            checks.holds("random pieces", reads_as(&log, &cuts, &want));
        }
    }
}

/// All strings of up to `length` bytes over an alphabet.
fn strings(alphabet: &[u8], length: usize) -> Vec<Vec<u8>> {
    let mut all = vec![vec![]];
    let mut first = 0;
    for _ in 0..length {
        let end = all.len();
        for at in first..end {
            for byte in alphabet {
                all.push([&all[at][..], &[*byte]].concat());
            }
        }
        first = end;
    }
    all
}

/// Of the states with few held bytes over a small alphabet, those that strings
/// leave are taken and all others are refused.
fn short_strings(checks: &mut Checks) {
    let alphabet = [0, 1, 2, 4, 5, 6];
    let mut left = HashSet::new();
    for string in strings(&alphabet, 4) {
        let mut reader = Reader::start();
        reader.piece(&string, |_| {});
        left.insert(reader);
        reader.over();
        left.insert(reader);
    }
    // Start, three ends; one held byte of four good kinds, two of four, three of
    // the kinds that need more, four of those that need still more.
    checks.equal("states left", left.len(), 4 + 4 + 4 * 6 + 3 * 36 + 2 * 216);
    let ends = [None, Some(Ended::Clean), Some(Ended::Unreadable), Some(Ended::Cut)];
    for held in strings(&alphabet, 5).iter().filter(|string| string.len() == 5) {
        for count in [0, 1, 2, 3, 4, 32, 255] {
            for ended in ends {
                let reader = Reader { ended, count, ..holding(held) };
                let good = left.contains(&reader);
                checks.equal("left by pieces", reader.is_left_by_pieces(), good);
                checks.equal("refused", refused(reader), !good);
            }
        }
    }
}

/// Whether pieces and "over" get -71 with no event and leave the state as it
/// was, though it hasn't ended with -71.
fn refused(mut reader: Reader) -> bool {
    let before = reader;
    let bad = (vec![], Some(Ended::Unreadable));
    let pieces = [&[][..], &[4, 1, 2], &[0; 40]];
    let all = pieces.iter().all(|piece| take(&mut reader, piece) == bad);
    all && reader.over() == Ended::Unreadable
        && reader == before
        && before != ended(Ended::Unreadable)
}

/// Every kind with every count, and one byte changed behind the held ones.
fn every_count(checks: &mut Checks) {
    let store = s::store(9, u32::MAX, 7);
    let clock = s::clock(u64::MAX);
    let set = s::set_priority((9, 9), 99);
    let events = [flagged(1), flagged(255), store, clock, s::interrupt((9, 9)), set];
    for record in events.iter().map(record) {
        for count in 0..record.len() {
            let mut reader = Reader::start();
            reader.piece(&record[..count], |_| {});
            checks.equal("held", reader, holding(&record[..count]));
            checks.holds("held is taken", reader.is_left_by_pieces());
            for place in count..HELD {
                let mut other = reader;
                other.held[place] = 1 << (place % 8);
                checks.holds("not zero behind", refused(other));
            }
            let ended = Some(Ended::Clean);
            checks.equal("ended", refused(Reader { ended, ..reader }), count > 0);
        }
        let full = [&record[..], &[0; HELD]].concat();
        for count in record.len()..=255 {
            let reader = Reader { count: count as u8, ..holding(&full[..HELD.min(count)]) };
            checks.holds("too many held", refused(reader));
        }
    }
    for kind in (0..=255).filter(|kind| !(1..=5).contains(kind)) {
        checks.holds("bad kind held", refused(holding(&[kind])));
    }
}
