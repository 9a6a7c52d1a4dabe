//! Runs libvradomil.a and the second kernel on the same seeded events, in one
//! process, and compares every answer and every byte that they leave.

mod caps;
mod events;
mod host;
mod operations;
mod order;
mod pair;
mod priorities;
mod reasons;
mod room;
mod tables;
mod tally;

use std::process::ExitCode;

use second::layout::{self, TABLE_BYTES, WORD_BYTES};
use second::model::{Event, State, THREADS};
use second::rng::Rng;

use events::Mood;
use pair::Pair;
use tables::BREAKS;
use tally::{Form, Tally};

/// Events of one stretch. Each starts anew, so that a seed and a stretch's
/// number are enough to run it again; all words are compared at its end.
const STRETCH: u64 = 1000;

fn main() -> ExitCode {
    let arguments: Vec<String> = std::env::args().skip(1).collect();
    let numbers: Vec<u64> = arguments.iter().filter_map(|text| text.parse().ok()).collect();
    let (&[seed, events], 2) = (&numbers[..], arguments.len()) else {
        eprintln!("usage: compare SEED EVENTS");
        return ExitCode::from(2);
    };
    let mut tally = Tally::new();
    for number in 0..events.div_ceil(STRETCH) {
        if let Err(first) = stretch(seed, number, false, &mut tally) {
            // A word far from all that an event names is seen late. Run it
            // again with all words compared each time, to find the event.
            let text = stretch(seed, number, true, &mut tally).err().unwrap_or(first);
            println!(
                "compare: seed {seed}, stretch {number}: they differ, or both are wrong\n{text}"
            );
            return ExitCode::FAILURE;
        }
    }
    let missing = tally.missing(BREAKS);
    for what in &missing {
        println!("compare: seed {seed}: never came up: {what}");
    }
    let verdict = if missing.is_empty() { "no difference" } else { "too little was tried" };
    println!("compare: seed {seed}: {}, {verdict}", tally.summary());
    ExitCode::from(!missing.is_empty() as u8)
}

/// What a stretch tries.
fn stretch(seed: u64, number: u64, careful: bool, tally: &mut Tally) -> Result<(), String> {
    let mut rng = Rng::new(seed.wrapping_mul(0x9E37_79B9_7F4A_7C15) ^ (number << 1 | 1) << 20);
    let mut run = Run { pair: Pair::new(careful), rng: Rng::new(rng.u64()), shift: 0, tally };
    run.shift = if rng.percent(50) { 0 } else { rng.below(16) as usize };
    run.new_words(WORD_BYTES);
    match number % 10 {
        0..=3 => run.history(),
        4 => run.on_edges(),
        5..=6 => run.on_sound(),
        7..=8 => run.on_any(),
        _ => run.on_lengths(),
    }?;
    run.check_words()
}

struct Run<'a> {
    pair: Pair,
    rng: Rng,
    shift: usize,
    tally: &'a mut Tally,
}

impl Run<'_> {
    fn new_words(&mut self, length: usize) {
        self.pair.set_words(&mut self.rng, length, self.shift);
    }

    /// All words; the error has no text, since any event may have changed one.
    fn check_words(&self) -> Result<(), String> {
        if self.pair.words_agree() {
            Ok(())
        } else {
            Err(String::new())
        }
    }

    fn set_tables(&mut self, bytes: &[u8], sound: bool) {
        self.pair.set_tables(bytes, self.shift);
        if sound {
            self.tally.sound += 1;
        } else {
            self.tally.broken += 1;
        }
    }

    fn set_state(&mut self, state: &State) {
        self.set_tables(&layout::encode(state), true);
    }

    fn step(&mut self, event: &Event) -> Result<(), String> {
        let length = self.report_length(event);
        self.pair.set_report(&mut self.rng, length);
        self.tally.finds(event, self.pair.state.as_ref());
        let state = self.pair.state.as_ref();
        let too_high = state.and_then(|state| priorities::too_high(event, state));
        let given = self.pair.step(event)?;
        if !tally::is_answer(given.number) {
            return Err(format!("{event:?}: both answer {}, which is no answer", given.number));
        }
        let applying = if given.number == -22 { reasons::applying(event) } else { 0 };
        if given.reason != reasons::lowest(applying) {
            return Err(format!("{event:?}: reason {}, not the lowest", given.reason));
        }
        if !self.pair.priorities_kept(event, given.number) {
            return Err(format!("{event:?}: both change a priority, or more than the one it sets"));
        }
        self.tally.event(event, given.number, Form::of(length), applying);
        self.tally.too_high(event, given.number, too_high);
        if given.number >= 0 {
            self.succeeded(event)?;
        }
        Ok(())
    }

    /// What an event did that wasn't refused.
    fn succeeded(&mut self, event: &Event) -> Result<(), String> {
        if !self.pair.order_kept(event) {
            return Err(format!("{event:?}: both take one before another who goes first"));
        }
        self.tally.wake_op(self.pair.shown(event));
        self.tally.caps(event, self.pair.caps_end(event));
        self.tally.order(event, self.pair.order_shown(event));
        self.tally.fates(event, self.pair.fates(event));
        Ok(())
    }

    /// How many bytes an event's report is given; none: its number is all that
    /// is asked for.
    fn report_length(&mut self, event: &Event) -> Option<usize> {
        if matches!(event, Event::Query { .. }) {
            return None;
        }
        match self.rng.below(8) {
            0..=2 => None,
            3 => Some(0),
            4..=5 => Some(1),
            6 => Some(2),
            _ => Some(3 + self.rng.below(30) as usize),
        }
    }

    /// An event that fits these tables. Broken ones may name sleepers that
    /// aren't there, so there it fits others.
    fn event(&mut self, mood: Mood, fits: Option<&State>) -> Result<(), String> {
        let state = fits.or(self.pair.state.as_ref());
        let Some(state) = state else {
            return Ok(());
        };
        if fits.is_none() {
            self.tally.sleepers |= 1 << state.count;
        }
        let event = events::next(&mut self.rng, mood, state, &self.pair.words);
        self.step(&event)
    }

    /// One history from the tables that the library lays down.
    fn history(&mut self) -> Result<(), String> {
        let number = self.pair.fresh(TABLE_BYTES, self.shift)?;
        self.tally.fresh(number);
        self.tally.sound += 1;
        let mut mood = events::mood(&mut self.rng);
        for _ in 1..STRETCH {
            if self.rng.percent(1) {
                mood = events::mood(&mut self.rng);
            }
            self.event(mood, None)?;
        }
        Ok(())
    }

    /// Arguments at the edges, on sound tables that are replaced now and then.
    fn on_edges(&mut self) -> Result<(), String> {
        self.on_states(events::EDGES, 20)
    }

    /// Ordinary events on sound tables.
    fn on_sound(&mut self) -> Result<(), String> {
        let mood = events::mood(&mut self.rng);
        self.on_states(mood, 8)
    }

    /// Sound tables with any number of sleepers, and `events` events on each.
    fn on_states(&mut self, mood: Mood, events: u64) -> Result<(), String> {
        for _ in 0..STRETCH / events {
            let sleepers = tables::sleepers(&mut self.rng);
            let state = tables::sound(&mut self.rng, sleepers);
            self.set_state(&state);
            for _ in 0..events {
                self.event(mood, None)?;
            }
        }
        Ok(())
    }

    /// Single events on tables with one fault, and on random bytes.
    fn on_any(&mut self) -> Result<(), String> {
        let mut state = State::fresh();
        for count in 0..STRETCH {
            if count % 16 == 0 {
                let sleepers = tables::sleepers(&mut self.rng).clamp(1, THREADS - 1);
                state = tables::sound(&mut self.rng, sleepers);
            }
            let mut breaks = 0;
            let bytes = match self.rng.below(8) {
                0..=3 => {
                    let which = self.rng.below(BREAKS as u64) as usize;
                    breaks = 1 << which;
                    tables::break_rule(&mut self.rng, state.clone(), which)
                }
                4..=6 => tables::change_byte(&mut self.rng, &state),
                _ => tables::random_bytes(&mut self.rng),
            };
            let sound = layout::decode(&bytes).is_some_and(|state| state.rules_hold());
            // What breaks a short list may leave one of 63 as it was.
            if !sound {
                self.tally.breaks |= breaks;
            }
            self.set_tables(&bytes, sound);
            self.event(events::EDGES, Some(&state))?;
        }
        Ok(())
    }

    /// Tables and words of wrong lengths, one of them or both.
    fn on_lengths(&mut self) -> Result<(), String> {
        for _ in 0..STRETCH / 100 {
            let lengths = &[0, 1, 3, 4, 16384, 32764, 32767, 32769, 32772, 65536];
            let good = self.rng.percent(40);
            let length = if good { WORD_BYTES } else { self.rng.pick(lengths) };
            self.new_words(length);
            let sleepers = tables::sleepers(&mut self.rng);
            let state = tables::sound(&mut self.rng, sleepers);
            for _ in 0..99 {
                if good || self.rng.percent(30) {
                    let bytes = tables::wrong_length(&mut self.rng, &state);
                    self.set_tables(&bytes, false);
                } else {
                    self.set_state(&state);
                }
                self.event(events::EDGES, Some(&state))?;
            }
            let length = self.rng.pick(&[0, 1, 1296, 1359, 1360, 1361, 2720]) as usize;
            let number = self.pair.fresh(length, self.shift)?;
            self.tally.fresh(number);
            self.check_words()?;
        }
        Ok(())
    }
}
