//! What the program `swapreport` prints.

use super::calls;
use super::report::ROW;

/// "It prints steps accepted, refusal, blocks; then transaction, status, payee,
/// block, lock height, deadline. ... On a refusal it prints the first line only,
/// blocks 0."
pub fn text(sheet: &[u8], setup: &[u8], journal: &[u8]) -> String {
    let run = calls::run(sheet, setup, journal);
    match calls::outcome(sheet, setup, journal) {
        Ok(outcome) if outcome.refusal == 0 => {
            let blocks = outcome.course.position.mined;
            let first = format!("{} 0 {}\n", run.accepted, blocks);
            let report = calls::report_bytes(sheet, setup, journal).unwrap_or_default();
            let rows = report.chunks_exact(ROW).enumerate();
            rows.fold(first, |text, (t, row)| text + &line(t, row))
        }
        _ => format!("{} {} 0\n", run.accepted, run.refusal),
    }
}

/// The line of one transaction.
fn line(t: usize, row: &[u8]) -> String {
    let value = |at: usize| u32::from_le_bytes([row[at], row[at + 1], row[at + 2], row[at + 3]]);
    let (block, lock_height, deadline) = (value(2), value(6), value(10));
    format!(
        "{t} {} {} {block} {lock_height} {deadline}\n",
        row[0], row[1]
    )
}
