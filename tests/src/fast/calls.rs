//! The four calls, each answering refusal × 65,536 + count.

use super::contract::{check_sheet, Contract};
use super::form::{Form, Ran};
use super::open::Steps;
use super::rows;
use super::{require, Checked};

/// "over 65,536 bytes".
const MOST_BYTES: usize = 65_536;

/// The contract, and the journal played up to its first refused step, or the refusal before any step.
fn play<F: Form, const NOTE: bool>(
    sheet: &[u8],
    setup: &[u8],
    journal: &[u8],
) -> Result<(Contract, Ran), u32> {
    let contract = Contract::read(sheet, setup)?;
    let (steps, rest) = journal.as_chunks();
    require(rest.is_empty() && journal.len() <= MOST_BYTES, 24)?;
    let ran = F::run::<NOTE>(&contract, steps);
    Ok((contract, ran))
}

/// The same of a journal that is accepted whole, or its refusal.
fn play_whole<F: Form, const NOTE: bool>(
    sheet: &[u8],
    setup: &[u8],
    journal: &[u8],
) -> Result<(Contract, Ran), u32> {
    let (contract, ran) = play::<F, NOTE>(sheet, setup, journal)?;
    require(ran.refusal == 0, ran.refusal)?;
    Ok((contract, ran))
}

fn number(refusal: u32, count: u32) -> u32 {
    refusal << 16 | count
}

fn checked(checked: Checked) -> u32 {
    number(checked.err().unwrap_or(0), 0)
}

/// Checks a sheet.
pub fn check(sheet: &[u8]) -> u32 {
    checked(check_sheet(sheet))
}

/// Runs a journal.
pub fn run<F: Form>(sheet: &[u8], setup: &[u8], journal: &[u8]) -> u32 {
    match play::<F, false>(sheet, setup, journal) {
        Ok((_, ran)) => number(ran.refusal, ran.accepted as u32),
        Err(refusal) => number(refusal, 0),
    }
}

/// Lists the open steps after a journal.
pub fn list<F: Form>(sheet: &[u8], setup: &[u8], journal: &[u8], output: &mut [u8]) -> u32 {
    match write_list::<F>(sheet, setup, journal, output) {
        Ok(count) => number(0, count),
        Err(refusal) => number(refusal, 0),
    }
}

fn write_list<F: Form>(
    sheet: &[u8],
    setup: &[u8],
    journal: &[u8],
    output: &mut [u8],
) -> Result<u32, u32> {
    let (contract, ran) = play_whole::<F, false>(sheet, setup, journal)?;
    let steps = Steps::open(&contract, &ran.position);
    let bytes = steps.as_slice().as_flattened();
    let written = output.get_mut(..bytes.len()).ok_or(25u32)?;
    written.copy_from_slice(bytes);
    Ok(steps.as_slice().len() as u32)
}

/// Reports the position after a journal.
pub fn report<F: Form>(sheet: &[u8], setup: &[u8], journal: &[u8], output: &mut [u8]) -> u32 {
    checked(write_report::<F>(sheet, setup, journal, output))
}

fn write_report<F: Form>(sheet: &[u8], setup: &[u8], journal: &[u8], output: &mut [u8]) -> Checked {
    let (contract, ran) = play_whole::<F, true>(sheet, setup, journal)?;
    let length = rows::ROW * contract.count;
    let part = output.get_mut(..length).ok_or(25u32)?;
    rows::write(&contract, &ran.position, &ran.opened, part);
    Ok(())
}
