//! The page for the wall: document 02, Slip 2.

use super::calls;
use super::heights::NEVER;
use super::report::ROW;
use super::{ALICE, BOB, CAROL, CONTRACT};

/// "lines of exactly 72 characters and a line feed".
pub const LINE: usize = 73;

/// "number right-aligned in 3, status in 4, payee in 9 ..., block in 8, lock
/// height in 16, deadline in 16, then blanks to 72".
fn line(texts: [&str; 6]) -> String {
    let [number, status, payee, block, lock_height, deadline] = texts;
    let columns =
        format!("{number:>3}{status:>4}{payee:>9}{block:>8}{lock_height:>16}{deadline:>16}");
    format!("{columns:<72}\n")
}

/// "payee ... as Alice, Bob, contract or a dash"; Slip 10: "on the page she is Carol".
fn payee(destination: u8) -> &'static str {
    match destination {
        ALICE => "Alice",
        BOB => "Bob",
        CONTRACT => "contract",
        CAROL => "Carol",
        _ => "-",
    }
}

/// "\"Never\" is printed as never."
fn height(value: u32) -> String {
    match value {
        NEVER => "never".to_string(),
        number => number.to_string(),
    }
}

/// The line of transaction t, from its row of the report.
fn row_line(t: usize, row: &[u8]) -> String {
    let value = |at: usize| u32::from_le_bytes([row[at], row[at + 1], row[at + 2], row[at + 3]]);
    line([
        &t.to_string(),
        &row[0].to_string(),
        payee(row[1]),
        &value(2).to_string(),
        &height(value(6)),
        &height(value(10)),
    ])
}

/// "a header, then one line for each transaction", or the report's refusal.
pub fn text(sheet: &[u8], setup: &[u8], journal: &[u8]) -> Result<String, u32> {
    let header = line(["no", "st", "payee", "block", "lock height", "deadline"]);
    let report = calls::report_bytes(sheet, setup, journal)?;
    let rows = report.chunks_exact(ROW).enumerate();
    Ok(rows.fold(header, |text, (t, row)| text + &row_line(t, row)))
}

/// The number that C gets: "the report's arguments and answers". "25 when the
/// page doesn't fit the buffer, as for the report."
pub fn page_number(sheet: &[u8], setup: &[u8], journal: &[u8], output: &mut [u8]) -> u32 {
    match text(sheet, setup, journal) {
        Err(refusal) => calls::number(refusal, 0),
        Ok(text) => calls::report_answer(output, text.as_bytes()),
    }
}
