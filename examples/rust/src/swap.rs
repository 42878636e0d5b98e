//! The calls of the installed swap library that this program uses. Constants and refusals are made of the library's table.

#![allow(dead_code)]

include!(concat!(env!("OUT_DIR"), "/table.rs"));

extern "C" {
    fn swap_run(
        sheet: *const u8,
        sheet_length: usize,
        setup: *const u8,
        setup_length: usize,
        journal: *const u8,
        journal_length: usize,
    ) -> u32;
    fn swap_report(
        sheet: *const u8,
        sheet_length: usize,
        setup: *const u8,
        setup_length: usize,
        journal: *const u8,
        journal_length: usize,
        output: *mut u8,
        output_length: usize,
    ) -> u32;
}

/// The files of a swap.
pub struct Swap {
    pub sheet: Vec<u8>,
    pub setup: Vec<u8>,
    pub journal: Vec<u8>,
}

/// The refusal and the count of an answer.
fn parts(answer: u32) -> (u32, u32) {
    (answer >> 16, answer & 0xffff)
}

/// Runs the journal: the steps accepted, or the refusal and where it stopped.
pub fn run(swap: &Swap) -> Result<u32, (u32, u32)> {
    let Swap {
        sheet,
        setup,
        journal,
    } = swap;
    // SAFETY: each pointer comes with the length of its slice, and the call keeps none.
    let answer = unsafe {
        swap_run(
            sheet.as_ptr(),
            sheet.len(),
            setup.as_ptr(),
            setup.len(),
            journal.as_ptr(),
            journal.len(),
        )
    };
    match parts(answer) {
        (SWAP_ACCEPTED, count) => Ok(count),
        refused => Err(refused),
    }
}

/// The rows of the report, one for each transaction.
pub fn report(swap: &Swap) -> Result<Vec<Vec<u8>>, (u32, u32)> {
    let Swap {
        sheet,
        setup,
        journal,
    } = swap;
    let mut output = [0; SWAP_REPORT_SIZE as usize];
    // SAFETY: as above, and the output is a slice of its own.
    let answer = unsafe {
        swap_report(
            sheet.as_ptr(),
            sheet.len(),
            setup.as_ptr(),
            setup.len(),
            journal.as_ptr(),
            journal.len(),
            output.as_mut_ptr(),
            output.len(),
        )
    };
    match parts(answer) {
        (SWAP_ACCEPTED, _) => {
            let count = u32::from(sheet[0]) % SWAP_THREE_PARTIES;
            let rows = output.chunks(SWAP_REPORT_ROW as usize).take(count as usize);
            Ok(rows.map(<[u8]>::to_vec).collect())
        }
        refused => Err(refused),
    }
}

/// The name and the words of a refusal.
pub fn refusal(number: u32) -> (&'static str, &'static str) {
    let found = REFUSALS.iter().find(|(of, _, _)| *of == number);
    found.map_or(
        ("unknown", "not in the refusal table"),
        |&(_, name, words)| (name, words),
    )
}
