//! The rows of a report.

use super::contract::Contract;
use super::opened::Opened;
use super::position::Position;

/// The bytes of a row.
pub const ROW: usize = 18;

/// Writes a row for each transaction.
pub fn write(contract: &Contract, position: &Position, opened: &Opened, output: &mut [u8]) {
    let struck = struck(contract, position);
    for (t, row) in output.chunks_exact_mut(ROW).enumerate() {
        write_row(contract, position, struck, t, row);
        row[14..].copy_from_slice(&opened.counts[t].to_le_bytes());
    }
}

/// The transactions whose other rival is confirmed.
fn struck(contract: &Contract, position: &Position) -> u32 {
    (0..contract.count)
        .filter(|&t| contract.transactions[t].rivals & position.confirmed & !(1 << t) != 0)
        .fold(0, |all, t| all | 1 << t)
}

fn write_row(contract: &Contract, position: &Position, struck: u32, t: usize, row: &mut [u8]) {
    let x = &contract.transactions[t];
    let confirmed = position.confirmed >> t & 1 == 1;
    let dead = !confirmed && x.line & struck != 0;
    let pool = position.pool >> t & 1 == 1;
    let block = position.block >> t & 1 == 1;
    row[0] = u8::from(pool) + 2 * u8::from(block) + 4 * u8::from(confirmed) + 8 * u8::from(dead);
    row[1] = if confirmed {
        position.confirmed_to[t]
    } else {
        255
    };
    row[2..6].copy_from_slice(&u32::from(position.height[t]).to_le_bytes());
    row[6..10].copy_from_slice(&position.lock_height(x).to_le_bytes());
    row[10..14].copy_from_slice(&position.deadline(contract, x).to_le_bytes());
}
