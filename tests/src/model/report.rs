//! The report, and the holders and payouts read from a position or a report.

use super::first_open;
use super::heights;
use super::journal::Course;
use super::position::Position;
use super::setup::Setup;
use super::sheet::Sheet;
use super::CONTRACT;
use std::collections::BTreeMap;

/// "Report writes 14 bytes for each transaction."
pub const OLDER_ROW: usize = 14;
/// Slip 9: each gains "this count at their end, 4 bytes".
pub const ROW: usize = OLDER_ROW + 4;
/// The payee byte of an unconfirmed transaction.
pub const UNCONFIRMED: u8 = 255;

/// For each coin, named by its opening, the destination that holds it: 0 Alice,
/// 1 Bob, 2 contract, 3 Carol, or nobody.
pub type Holders = BTreeMap<u8, Option<u8>>;

/// "status (1 pool, 2 block, 4 confirmed, 8 dead, summed)".
pub fn status(sheet: &Sheet, position: &Position, t: u8) -> u8 {
    let parts = [
        (1, position.in_pool(t)),
        (2, position.in_block(t)),
        (4, position.is_confirmed(t)),
        (8, heights::dead(sheet, position, t)),
    ];
    let standing = parts.iter().filter(|(_, stands)| *stands);
    standing.map(|(value, _)| value).sum()
}

/// "status ..., payee (destination, 255 unconfirmed), then three 4-byte values:
/// block or 0, lock height, deadline".
pub fn older_row(sheet: &Sheet, setup: &Setup, position: &Position, t: u8) -> [u8; OLDER_ROW] {
    let (payee, block) = match position.confirmed.get(&t) {
        None => (UNCONFIRMED, 0),
        Some(confirmation) => (confirmation.destination, confirmation.block),
    };
    let lock_height = heights::lock_height(sheet, setup, position, t);
    let deadline = heights::deadline(sheet, setup, position, t);
    let mut bytes = [0; OLDER_ROW];
    bytes[0] = status(sheet, position, t);
    bytes[1] = payee;
    bytes[2..6].copy_from_slice(&block.to_le_bytes());
    bytes[6..10].copy_from_slice(&lock_height.to_le_bytes());
    bytes[10..14].copy_from_slice(&deadline.to_le_bytes());
    bytes
}

/// The rows of all transactions, after the accepted steps of a course. Slip 9:
/// each gains its count at its end, 4 bytes.
pub fn bytes(sheet: &Sheet, setup: &Setup, course: &Course) -> Vec<u8> {
    let older = |t: u8| older_row(sheet, setup, &course.position, t);
    if !setup.slips.first_open_in_report {
        return (0..sheet.count()).flat_map(older).collect();
    }
    let along = first_open::positions(sheet, setup, &course.accepted);
    let count = |t: u8| first_open::count(sheet, setup, &along, t).to_le_bytes();
    (0..sheet.count())
        .flat_map(|t| older(t).into_iter().chain(count(t)))
        .collect()
}

/// "A coin's holder ...: the payee of the one confirmed transaction, the coin's
/// opening or below it, that has no confirmed child; nobody before the opening
/// is confirmed." The payee of a transaction is given for confirmed ones only.
fn holders(sheet: &Sheet, payee: impl Fn(u8) -> Option<u8>) -> Holders {
    let childless = |t: u8| {
        let mut children = sheet.children(t).iter();
        children.all(|&child| payee(child).is_none())
    };
    let mut holders: Holders = sheet.coins().into_iter().map(|c| (c, None)).collect();
    for t in 0..sheet.count() {
        if payee(t).is_some() && childless(t) {
            let before = holders.insert(sheet.coin(t), payee(t));
            assert_eq!(before, Some(None), "one such transaction for each coin");
        }
    }
    holders
}

/// The holders, read from the position.
pub fn holders_from_position(sheet: &Sheet, position: &Position) -> Holders {
    let payee = |t: u8| position.confirmed.get(&t).map(|c| c.destination);
    holders(sheet, payee)
}

/// The holders, read from the bytes of a report.
pub fn holders_from_report(sheet: &Sheet, report: &[u8]) -> Holders {
    let payee = |t: u8| {
        let row = &report[ROW * usize::from(t)..][..ROW];
        (row[0] & 4 == 4).then_some(row[1])
    };
    holders(sheet, payee)
}

/// "A payout is a coin whose holder is a party": the coin and the party.
pub fn payouts(holders: &Holders) -> BTreeMap<u8, u8> {
    let held = holders.iter().filter_map(|(&coin, &h)| Some((coin, h?)));
    held.filter(|&(_, holder)| holder != CONTRACT).collect()
}
