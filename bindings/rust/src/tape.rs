//! Whole tapes in memory, and how many answers there will be.

use crate::error::Short;
use crate::linked;
use crate::sizes::command_bytes;

/// How many answers the tape gets.
pub fn answers(tape: &[u8]) -> usize {
    linked::answers(tape) as usize
}

/// Runs the tape on a store of its own: writes each answer's number and three operands to the start of `out`,
/// and gives how many answers there are.
///
/// # Errors
/// The list is too short; it is as it was.
pub fn run_into(tape: &[u8], out: &mut [u64]) -> Result<usize, Short> {
    match linked::run(tape, out) {
        linked::SHORT => Err(Short {
            needed: 4 * answers(tape),
            room: out.len(),
        }),
        count => Ok(count as usize),
    }
}

/// Runs the tape on a store of its own: each answer's number and three operands, in the order of the tape.
/// [`Answer::from_numbers`](crate::Answer::from_numbers) reads them. The first is line 1; the only answer of
/// a refused opening, 10 10 0 0 or 40 2 0 0, is line 0.
pub fn run(tape: &[u8]) -> Vec<[u64; 4]> {
    let mut out = vec![[0; 4]; answers(tape)];
    run_into(tape, out.as_flattened_mut()).expect("`answers` gave the room");
    out
}

/// How many answers commands get that a store is given in one call: one for each, and one more where a byte
/// that is no command, or a command that is cut short, ends them.
pub fn command_answers(commands: &[u8]) -> usize {
    let mut count = 0;
    let mut rest = commands;
    while let Some(byte) = rest.first() {
        count += 1;
        let Some(behind) = command_bytes(*byte).and_then(|bytes| rest.get(bytes..)) else {
            break;
        };
        rest = behind;
    }
    count
}
