//! The futex call: its tests in the order of the table of answers, then what
//! each command does.

use super::{
    thread_number, word_number, Answer, Call, Refusal, Sleepers, State, CLOCK_BIT, CMP_REQUEUE,
    EAGAIN, EBUSY, EFAULT, ENOMEM, ENOSYS, ESRCH, ETIMEDOUT, FIRST_BAD_ADDRESS, FIRST_CAP,
    MASK_ZERO, PRIVATE_BIT, REQUEUE, SAME_ADDRESS, SECOND_CAP, THREADS, UADDR2_NOT_ALIGNED,
    UADDR_NOT_ALIGNED, WAIT, WAIT_BITSET, WAKE, WAKE_BITSET, WAKE_OP, WOKEN,
};

/// The highest cap that a wake may carry.
const HIGHEST_CAP: u32 = 2147483647;
/// The mask of a command that isn't a BITSET command.
const ALL_ONES: u32 = u32::MAX;

#[derive(Clone, Copy, PartialEq, Eq)]
enum Command {
    Wait,
    WaitBitset,
    Wake,
    WakeBitset,
    Requeue,
    CmpRequeue,
    WakeOp,
}
use Command::*;

/// Answers one call: the rows of the table of answers after -6 and -9.
pub fn call(state: &mut State, words: &mut [u32], call: &Call) -> Result<Answer, Refusal> {
    let caller = thread_number(call.process, call.index).ok_or(ESRCH)?;
    if state.threads[caller].waiting {
        return Err(EBUSY.into());
    }
    let command = known_command(call.op).ok_or(ENOSYS)?;
    if let Some(reason) = broken_argument_rule(command, call) {
        return Err(Refusal::argument(reason));
    }
    if address_beyond(command, call) {
        return Err(EFAULT.into());
    }
    if command == WakeOp && Operation::of(call.val3).is_none() {
        return Err(ENOSYS.into());
    }
    if let Some(expected) = expected_word(command, call) {
        if words[word_number(call.process, call.uaddr)] != expected {
            return Err(EAGAIN.into());
        }
    }
    if is_wait(command) {
        return sleep(state, caller, command, call); // -110, -12
    }
    Ok(Answer::Number(wake_or_requeue(state, words, command, call)))
}

/// The command of an op, or none for -38: an unknown number, the clock bit,
/// or a bit that is neither of the two options. The private bit has no effect.
fn known_command(op: u32) -> Option<Command> {
    if op & CLOCK_BIT != 0 {
        return None;
    }
    match op & !PRIVATE_BIT {
        WAIT => Some(Wait),
        WAKE => Some(Wake),
        REQUEUE => Some(Requeue),
        CMP_REQUEUE => Some(CmpRequeue),
        WAKE_OP => Some(WakeOp),
        WAIT_BITSET => Some(WaitBitset),
        WAKE_BITSET => Some(WakeBitset),
        _ => None,
    }
}

fn is_wait(command: Command) -> bool {
    matches!(command, Wait | WaitBitset)
}

/// The commands that use uaddr2 are just those that use a second cap.
fn has_second(command: Command) -> bool {
    matches!(command, Requeue | CmpRequeue | WakeOp)
}

/// The second cap is the timeout modulo 2^32; the flag is ignored.
fn second_cap(call: &Call) -> u32 {
    (call.timeout % (1 << 32)) as u32
}

fn address_beyond(command: Command, call: &Call) -> bool {
    call.uaddr >= FIRST_BAD_ADDRESS || (has_second(command) && call.uaddr2 >= FIRST_BAD_ADDRESS)
}

/// The argument rules (-22), in the order of their reasons: the first that is
/// broken gives the lowest. Arguments not in use are not looked at: val is a
/// cap for every command but a wait.
fn broken_argument_rule(command: Command, call: &Call) -> Option<u8> {
    if !is_wait(command) && call.val > HIGHEST_CAP {
        return Some(FIRST_CAP);
    }
    if has_second(command) && second_cap(call) > HIGHEST_CAP {
        return Some(SECOND_CAP);
    }
    if matches!(command, WaitBitset | WakeBitset) && call.val3 == 0 {
        return Some(MASK_ZERO);
    }
    if call.uaddr % 4 != 0 {
        return Some(UADDR_NOT_ALIGNED);
    }
    if has_second(command) && call.uaddr2 % 4 != 0 {
        return Some(UADDR2_NOT_ALIGNED);
    }
    if matches!(command, Requeue | CmpRequeue) && call.uaddr == call.uaddr2 {
        return Some(SAME_ADDRESS);
    }
    None
}

/// What the word at uaddr must be, for the commands that compare (-11).
fn expected_word(command: Command, call: &Call) -> Option<u32> {
    match command {
        Wait | WaitBitset => Some(call.val),
        CmpRequeue => Some(call.val3),
        _ => None,
    }
}

/// A wait whose word matched: the deadline is tested, then the list's room,
/// and only then does the caller join the list.
fn sleep(
    state: &mut State,
    caller: usize,
    command: Command,
    call: &Call,
) -> Result<Answer, Refusal> {
    let deadline = deadline(command, call, state.clock);
    if deadline.is_some_and(|time| time <= state.clock) {
        return Err(ETIMEDOUT.into());
    }
    // Sound tables with a running caller list at most 63, so this one never
    // answers; it stands because document 01's table has it.
    if state.count >= THREADS as u64 {
        return Err(ENOMEM.into());
    }
    let bitset = if command == WaitBitset { call.val3 } else { ALL_ONES };
    state.join(caller, call.uaddr, bitset, deadline);
    Ok(Answer::Asleep)
}

/// WAIT's timeout is relative and stops at 2^64 - 1, WAIT_BITSET's is absolute.
fn deadline(command: Command, call: &Call, clock: u64) -> Option<u64> {
    if call.flag == 0 {
        return None;
    }
    if command == WaitBitset {
        return Some(call.timeout);
    }
    Some(clock.saturating_add(call.timeout))
}

/// The commands that never sleep, after all tests. Gives the count.
fn wake_or_requeue(state: &mut State, words: &mut [u32], command: Command, call: &Call) -> i32 {
    match command {
        WakeOp => wake_op(state, words, call),
        WakeBitset => release(state, at(call, Some(call.val3)), call.val),
        // REQUEUE reports the released only, CMP_REQUEUE the sum.
        Requeue => requeue(state, call).0,
        CmpRequeue => {
            let (released, moved) = requeue(state, call);
            released + moved
        }
        _ => release(state, at(call, None), call.val),
    }
}

/// The sleepers at uaddr.
fn at(call: &Call, mask: Option<u32>) -> Sleepers {
    Sleepers { process: call.process, address: call.uaddr, mask }
}

/// Gives how many it released.
fn release(state: &mut State, sleepers: Sleepers, cap: u32) -> i32 {
    let taken = sleepers.take(state, cap);
    state.let_run(&taken, WOKEN)
}

/// The next after those that the first cap releases move, in the order in which
/// they are taken. Gives how many were released and how many moved.
fn requeue(state: &mut State, call: &Call) -> (i32, i32) {
    let released = release(state, at(call, None), call.val);
    let taken = at(call, None).take(state, second_cap(call));
    (released, state.put_last(&taken, call.uaddr2))
}

/// WAKE_OP: the second word changes first, then sleepers of the first word are
/// released, then, if the old second word compares true, those of the second
/// that are still asleep.
fn wake_op(state: &mut State, words: &mut [u32], call: &Call) -> i32 {
    let Some(operation) = Operation::of(call.val3) else {
        return ENOSYS; // tested before; nothing has changed here either
    };
    let place = word_number(call.process, call.uaddr2);
    let old = words[place];
    words[place] = operation.new_word(old);
    let first = at(call, None);
    let released = release(state, first, call.val);
    if !operation.compares_true(old) {
        return released;
    }
    let second = Sleepers { address: call.uaddr2, ..first };
    released + release(state, second, second_cap(call))
}

/// What a field of so many bits stands for as a signed number: the upper half
/// of its values is below 0.
fn signed(field: u32, bits: u32) -> i64 {
    let field = i64::from(field);
    let values = 1 << bits;
    if field < values / 2 {
        field
    } else {
        field - values
    }
}

/// WAKE_OP's val3 taken apart: from the top 4 bits op, 4 cmp, 12 oparg,
/// 12 cmparg.
struct Operation {
    action: u32,
    operand: u32,
    comparison: u32,
    cmparg: i64,
}

impl Operation {
    /// None if the operation or the comparison is undefined.
    fn of(val3: u32) -> Option<Operation> {
        let op = val3 >> 28;
        let comparison = (val3 >> 24) & 15;
        let oparg = signed((val3 >> 12) & 4095, 12);
        let cmparg = signed(val3 & 4095, 12);
        let action = op & 7;
        if action > 4 || comparison > 5 {
            return None;
        }
        let operand = if op & 8 != 0 {
            // The field itself would do as well, for 32 divides 4096.
            1 << oparg.rem_euclid(32)
        } else {
            oparg.rem_euclid(1 << 32)
        };
        Some(Operation { action, operand: operand as u32, comparison, cmparg })
    }

    fn new_word(&self, old: u32) -> u32 {
        match self.action {
            0 => self.operand,
            1 => old.wrapping_add(self.operand),
            2 => old | self.operand,
            3 => old & !self.operand,
            _ => old ^ self.operand,
        }
    }

    /// The old word against cmparg, both as signed numbers.
    fn compares_true(&self, old: u32) -> bool {
        let old = signed(old, 32);
        match self.comparison {
            0 => old == self.cmparg,
            1 => old != self.cmparg,
            2 => old < self.cmparg,
            3 => old <= self.cmparg,
            4 => old > self.cmparg,
            _ => old >= self.cmparg,
        }
    }
}
