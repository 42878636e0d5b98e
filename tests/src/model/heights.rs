//! Rivals, line, dead, lock height and deadline.

use super::position::Position;
use super::setup::Setup;
use super::sheet::{Lock, Sheet, Transaction};
use std::collections::BTreeSet;

/// "2147483647 (never)".
pub const NEVER: u32 = 2_147_483_647;

/// "Rivals: transactions of one parent, itself included; an opening rivals only
/// itself."
pub fn rivals(transactions: &[Transaction], t: u8) -> BTreeSet<u8> {
    match transactions[usize::from(t)].parent {
        None => BTreeSet::from([t]),
        Some(parent) => children(transactions, parent),
    }
}

/// The transactions whose parent is this one.
pub fn children(transactions: &[Transaction], t: u8) -> BTreeSet<u8> {
    let numbers = 0..transactions.len() as u8;
    numbers
        .filter(|&child| transactions[usize::from(child)].parent == Some(t))
        .collect()
}

/// "A transaction's line is itself and the line of its parent."
pub fn line(transactions: &[Transaction], t: u8) -> BTreeSet<u8> {
    let mut members = match transactions[usize::from(t)].parent {
        None => BTreeSet::new(),
        Some(parent) => line(transactions, parent),
    };
    members.insert(t);
    members
}

/// "Dead: not confirmed, with a member of its line whose other rival is
/// confirmed."
pub fn dead(sheet: &Sheet, position: &Position, t: u8) -> bool {
    let other_rival_confirmed = |member: u8| {
        let mut rivals = sheet.rivals(member).iter();
        rivals.any(|&rival| rival != member && position.is_confirmed(rival))
    };
    !position.is_confirmed(t) && sheet.line(t).iter().any(|&m| other_rival_confirmed(m))
}

/// "Lock height: 0; or days × blocks per day; or, for type 2, the parent's block
/// plus that product, 2147483647 ("never") while the parent is unconfirmed."
pub fn lock_height(sheet: &Sheet, setup: &Setup, position: &Position, t: u8) -> u32 {
    let transaction = sheet.transaction(t);
    match transaction.lock {
        Lock::None => 0,
        Lock::Absolute { days } => u32::from(days) * setup.blocks_per_day,
        Lock::SinceParent { days } => {
            let parent = transaction.parent.and_then(|p| position.confirmed.get(&p));
            match parent {
                None => NEVER,
                Some(confirmation) => confirmation.block + u32::from(days) * setup.blocks_per_day,
            }
        }
    }
}

/// "Deadline: the least rival lock height above one's own, else never."
pub fn deadline(sheet: &Sheet, setup: &Setup, position: &Position, t: u8) -> u32 {
    let own = lock_height(sheet, setup, position, t);
    let rivals = sheet.rivals(t).iter();
    let heights = rivals.map(|&rival| lock_height(sheet, setup, position, rival));
    let above = heights.filter(|&height| height > own);
    above.min().unwrap_or(NEVER)
}
