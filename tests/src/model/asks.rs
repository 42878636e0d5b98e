//! Slip 12, "Ask first, commit after": the two calls of a dealer.

use super::calls::{self, Outcome};
use super::journal::MOST_BYTES;
use super::{setup, sheet, step};

/// "the refusal number with the count of steps in the journal"
#[derive(Clone, Copy, Debug, PartialEq, Eq)]
pub struct Asked {
    pub refusal: u32,
    pub count: usize,
}

/// What both calls do first: sheet and setup, then 24, which "now covers .., in
/// both calls, a journal already at 65,536 bytes"; then the journal is run.
/// None stands for a length beyond the buffer, which 24 covers too.
fn outcome(sheet: &[u8], setup: &[u8], journal: Option<&[u8]>) -> Result<Outcome, u32> {
    sheet::read(sheet)?;
    setup::read(sheet, setup)?;
    match journal {
        Some(journal) if journal.len() < MOST_BYTES => calls::outcome(sheet, setup, journal),
        _ => Err(24),
    }
}

/// The step's own refusal: "A step not of 4 bytes gets 11."
fn step_refusal(outcome: &Outcome, bytes: &[u8]) -> u32 {
    match <&[u8; 4]>::try_from(bytes) {
        Err(_) => 11,
        Ok(bytes) => step::refusal(
            &outcome.sheet,
            &outcome.setup,
            &outcome.course.position,
            bytes,
        ),
    }
}

/// Ask: "the journal's own refusal (in ask with run's count)", else the step's
/// with the count of steps in the journal.
pub fn ask(sheet: &[u8], setup: &[u8], journal: &[u8], bytes: &[u8]) -> Asked {
    match outcome(sheet, setup, Some(journal)) {
        Err(refusal) => Asked { refusal, count: 0 },
        Ok(outcome) => Asked {
            refusal: match outcome.refusal {
                0 => step_refusal(&outcome, bytes),
                number => number,
            },
            count: outcome.course.accepted.len(),
        },
    }
}

/// Commit's number, without the writing: the journal's own refusal, "35 when the
/// count isn't the journal's; tested after the journal's own refusal .. and
/// before the step", the step's, "25 when the buffer has no four bytes left,
/// tested after the step's own refusals".
fn refusal(sheet: &[u8], setup: &[u8], bytes: &[u8], count: u32, buffer: &[u8], size: u32) -> u32 {
    let size = size as usize;
    let outcome = match outcome(sheet, setup, buffer.get(..size)) {
        Err(number) => return number,
        Ok(outcome) => outcome,
    };
    if outcome.refusal != 0 {
        return outcome.refusal;
    }
    if count as usize != outcome.course.accepted.len() {
        return 35;
    }
    match step_refusal(&outcome, bytes) {
        0 if buffer.len() - size < 4 => 25,
        number => number,
    }
}

/// Commit: "on acceptance writes the four bytes after the journal. Bytes beyond
/// them stay untouched."
pub fn commit(
    sheet: &[u8],
    setup: &[u8],
    bytes: &[u8],
    count: u32,
    buffer: &mut [u8],
    size: u32,
) -> u32 {
    let number = refusal(sheet, setup, bytes, count, buffer, size);
    if number == 0 {
        let size = size as usize;
        buffer[size..size + 4].copy_from_slice(bytes);
    }
    number
}

/// The number that C gets from ask.
pub fn ask_number(sheet: &[u8], setup: &[u8], journal: &[u8], bytes: &[u8]) -> u32 {
    let asked = ask(sheet, setup, journal, bytes);
    calls::number(asked.refusal, asked.count)
}

/// The number that C gets from commit: "Commit answers a number".
pub fn commit_number(
    sheet: &[u8],
    setup: &[u8],
    bytes: &[u8],
    count: u32,
    buffer: &mut [u8],
    size: u32,
) -> u32 {
    calls::number(commit(sheet, setup, bytes, count, buffer, size), 0)
}
