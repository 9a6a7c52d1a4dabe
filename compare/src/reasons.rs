//! Which of the reasons for -22 an event's arguments give, told once more from
//! requests (i) and (vi) of document 02: so that a run knows which it has tried, and
//! that the one reported is the lowest.

use second::model::Event;

use crate::tally::{kind, Kind};

/// A set of reasons: bit r for reason r.
pub type Reasons = u16;

/// One more than the highest reason, and how many sets there are.
const REASONS: u8 = 9;
pub const SETS: usize = 1 << REASONS;

/// The reasons that events of a kind can be refused for.
pub fn possible(kind: Kind) -> &'static [u8] {
    match kind {
        "WAIT" | "store" => &[4],
        "WAKE" => &[1, 4],
        "REQUEUE" | "CMP_REQUEUE" => &[1, 2, 4, 5, 6],
        "WAKE_OP" => &[1, 2, 4, 5],
        "WAIT_BITSET" => &[3, 4],
        "WAKE_BITSET" => &[1, 3, 4],
        "clock" => &[7],
        "set priority" => &[8],
        _ => &[],
    }
}

/// The reasons that apply to an event that was answered -22. For a clock event
/// the answer says it.
pub fn applying(event: &Event) -> Reasons {
    let cap_bad = |cap: u32| cap > i32::MAX as u32;
    let holds = |reason: u8| match *event {
        Event::Call(ref call) => match reason {
            1 => cap_bad(call.val),
            2 => cap_bad(call.timeout as u32),
            3 => call.val3 == 0,
            4 => call.uaddr % 4 != 0,
            5 => call.uaddr2 % 4 != 0,
            _ => call.uaddr == call.uaddr2,
        },
        Event::Store { address, .. } => address % 4 != 0,
        Event::SetPriority { priority, .. } => priority > 31,
        _ => true,
    };
    let reasons = possible(kind(event)).iter().filter(|&&reason| holds(reason));
    reasons.fold(0, |set, reason| set | 1 << reason)
}

/// The lowest; 0 if there is none.
pub fn lowest(reasons: Reasons) -> u8 {
    (1..REASONS).find(|reason| reasons >> reason & 1 == 1).unwrap_or(0)
}
