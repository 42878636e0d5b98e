//! The four outward calls: check a sheet; run a journal; list open steps;
//! report. Each has a Rust answer and the one number that C gets.

use super::journal::{self, Course};
use super::setup::{self, Setup};
use super::sheet::{self, Sheet};
use super::{open, outage, report as rows};

/// The answer of run: "the number (0 if none) and steps accepted, with the rest
/// of the journal as a part of the caller's bytes, starting at the refused step,
/// empty if none".
#[derive(Clone, Copy, Debug, PartialEq, Eq)]
pub struct Run<'a> {
    pub refusal: u32,
    pub accepted: usize,
    pub rest: &'a [u8],
}

/// The answer of list: "the number and the steps written".
#[derive(Clone, Copy, Debug, PartialEq, Eq)]
pub struct List {
    pub refusal: u32,
    pub written: usize,
}

/// All that run, list and report go by. The refusal is the journal's own.
#[derive(Clone, Debug, PartialEq, Eq)]
pub struct Outcome {
    pub sheet: Sheet,
    pub setup: Setup,
    pub refusal: u32,
    pub course: Course,
}

/// Sheet, setup and journal, or the refusal before any step: 1 to 10 with 32 among
/// them, then 24.
pub fn outcome(sheet: &[u8], setup: &[u8], journal: &[u8]) -> Result<Outcome, u32> {
    let read_sheet = sheet::read(sheet)?;
    let read_setup = setup::read(sheet, setup)?;
    match journal::check(journal) {
        0 => {}
        number => return Err(number),
    }
    let groups = journal::groups(journal);
    let (refusal, course) = journal::run(&read_sheet, &read_setup, &groups);
    Ok(Outcome {
        sheet: read_sheet,
        setup: read_setup,
        refusal,
        course,
    })
}

/// The outcome of a journal that is accepted whole, or its refusal.
fn accepted(sheet: &[u8], setup: &[u8], journal: &[u8]) -> Result<Outcome, u32> {
    let outcome = outcome(sheet, setup, journal)?;
    match outcome.refusal {
        0 => Ok(outcome),
        number => Err(number),
    }
}

/// The open steps after a journal, or its refusal.
pub fn open_steps(sheet: &[u8], setup: &[u8], journal: &[u8]) -> Result<Vec<[u8; 4]>, u32> {
    let outcome = accepted(sheet, setup, journal)?;
    Ok(open::steps(
        &outcome.sheet,
        &outcome.setup,
        &outcome.course.position,
    ))
}

/// The bytes of the report after a journal, or its refusal.
pub fn report_bytes(sheet: &[u8], setup: &[u8], journal: &[u8]) -> Result<Vec<u8>, u32> {
    let outcome = accepted(sheet, setup, journal)?;
    Ok(rows::bytes(&outcome.sheet, &outcome.setup, &outcome.course))
}

/// 25: "buffer too short for list or report". "Bytes after the output keep their
/// values"; "a refusal changes no buffer".
pub fn write(output: &mut [u8], bytes: &[u8]) -> u32 {
    match output.get_mut(..bytes.len()) {
        None => 25,
        Some(part) => {
            part.copy_from_slice(bytes);
            0
        }
    }
}

/// Check a sheet.
pub fn check(sheet: &[u8]) -> u32 {
    sheet::check(sheet)
}

/// Run a journal. "Under 1 to 10 and 24 the count is 0 and the part is the whole
/// journal."; 32 comes "with count and part as under 10".
pub fn run<'a>(sheet: &[u8], setup: &[u8], journal: &'a [u8]) -> Run<'a> {
    let (refusal, accepted) = match outcome(sheet, setup, journal) {
        Err(number) => (number, 0),
        Ok(outcome) => (outcome.refusal, outcome.course.accepted.len()),
    };
    Run {
        refusal,
        accepted,
        rest: &journal[4 * accepted..],
    }
}

/// List open steps, "4 bytes a step".
pub fn list(sheet: &[u8], setup: &[u8], journal: &[u8], output: &mut [u8]) -> List {
    match open_steps(sheet, setup, journal) {
        Err(refusal) => List {
            refusal,
            written: 0,
        },
        Ok(steps) => write_steps(output, &steps),
    }
}

/// The answer of list where these are the open steps.
fn write_steps(output: &mut [u8], steps: &[[u8; 4]]) -> List {
    let refusal = write(output, &steps.concat());
    let written = match refusal {
        0 => steps.len(),
        _ => 0,
    };
    List { refusal, written }
}

/// Report.
pub fn report(sheet: &[u8], setup: &[u8], journal: &[u8], output: &mut [u8]) -> u32 {
    match report_bytes(sheet, setup, journal) {
        Err(refusal) => refusal,
        Ok(bytes) => write(output, &bytes),
    }
}

/// "C gets one number, refusal × 65,536 + count (0 for check and report)."
pub fn number(refusal: u32, count: usize) -> u32 {
    refusal * 65_536 + count as u32
}

/// The number that C gets from check.
pub fn check_number(sheet: &[u8]) -> u32 {
    number(check(sheet), 0)
}

/// The number that C gets from run.
pub fn run_number(sheet: &[u8], setup: &[u8], journal: &[u8]) -> u32 {
    let answer = run(sheet, setup, journal);
    number(answer.refusal, answer.accepted)
}

/// The number that C gets from list.
pub fn list_number(sheet: &[u8], setup: &[u8], journal: &[u8], output: &mut [u8]) -> u32 {
    let answer = list(sheet, setup, journal, output);
    number(answer.refusal, answer.written)
}

/// The same where these are the open steps.
pub fn list_answer(output: &mut [u8], steps: &[[u8; 4]]) -> u32 {
    let answer = write_steps(output, steps);
    number(answer.refusal, answer.written)
}

/// The number that C gets from report.
pub fn report_number(sheet: &[u8], setup: &[u8], journal: &[u8], output: &mut [u8]) -> u32 {
    number(report(sheet, setup, journal, output), 0)
}

/// The same where these are the rows.
pub fn report_answer(output: &mut [u8], rows: &[u8]) -> u32 {
    number(write(output, rows), 0)
}

/// The bytes of the outage call after a journal, or its refusal.
pub fn outage_bytes(
    sheet: &[u8],
    setup: &[u8],
    journal: &[u8],
    blocks: u32,
) -> Result<Vec<u8>, u32> {
    let Outcome {
        sheet,
        setup,
        course,
        ..
    } = accepted(sheet, setup, journal)?;
    Ok(outage::bytes(&sheet, &setup, &course.position, blocks))
}

/// The number that C gets from outage: "the report's refusals and order, 25 last; count 0".
pub fn outage_number(
    sheet: &[u8],
    setup: &[u8],
    journal: &[u8],
    blocks: u32,
    output: &mut [u8],
) -> u32 {
    match outage_bytes(sheet, setup, journal, blocks) {
        Err(refusal) => number(refusal, 0),
        Ok(rows) => outage_answer(output, &rows),
    }
}

/// The same where these are the rows.
pub fn outage_answer(output: &mut [u8], rows: &[u8]) -> u32 {
    number(write(output, rows), 0)
}
