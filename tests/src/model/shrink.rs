//! Slip 14, "The few steps that matter": of a refused journal, the part that is
//! left when each step that can go has gone.

use super::calls;
use super::journal;
use super::setup::{self, Setup};
use super::sheet::{self, Sheet};

/// "over 1,024 steps".
pub const MOST_STEPS: usize = 1_024;

/// "still runs up to it and gets the same number there": every step but the last
/// is accepted, and the last one gets this number.
fn still(sheet: &Sheet, setup: &Setup, steps: &[[u8; 4]], number: u32) -> bool {
    let (refusal, course) = journal::run(sheet, setup, steps);
    refusal == number && course.accepted.len() + 1 == steps.len()
}

/// "Fixed choice: go through from the first step, drop each that can go, and
/// repeat until a full round drops none." Each candidate is run from the start.
/// The second number is how many rounds there were.
pub fn rounds(
    sheet: &Sheet,
    setup: &Setup,
    refused: &[[u8; 4]],
    number: u32,
) -> (Vec<[u8; 4]>, usize) {
    let mut part = refused.to_vec();
    let mut rounds = 0;
    loop {
        rounds += 1;
        let before = part.len();
        let mut at = 0;
        while at + 1 < part.len() {
            let mut without = part.clone();
            without.remove(at);
            match still(sheet, setup, &without, number) {
                true => part = without,
                false => at += 1,
            }
        }
        if part.len() == before {
            return (part, rounds);
        }
    }
}

/// The part of a journal, or the refusal: sheet, setup, 24, "36 when the journal
/// has over 1,024 steps, tested after 24", "37 when no step of the journal is
/// refused".
pub fn part(sheet: &[u8], setup: &[u8], journal: &[u8]) -> Result<Vec<[u8; 4]>, u32> {
    let read_sheet = sheet::read(sheet)?;
    let read_setup = setup::read(sheet, setup)?;
    match journal::check(journal) {
        0 => {}
        number => return Err(number),
    }
    let steps = journal::groups(journal);
    if steps.len() > MOST_STEPS {
        return Err(36);
    }
    let (number, course) = journal::run(&read_sheet, &read_setup, &steps);
    if number == 0 {
        return Err(37);
    }
    let refused = &steps[..=course.accepted.len()];
    Ok(rounds(&read_sheet, &read_setup, refused, number).0)
}

/// The number that C gets: "The answer has the steps written, 0 when refused. 25
/// is tested last."
pub fn number(sheet: &[u8], setup: &[u8], journal: &[u8], output: &mut [u8]) -> u32 {
    match part(sheet, setup, journal) {
        Err(refusal) => calls::number(refusal, 0),
        Ok(steps) => match calls::write(output, &steps.concat()) {
            0 => calls::number(0, steps.len()),
            refusal => calls::number(refusal, 0),
        },
    }
}
