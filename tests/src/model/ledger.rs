//! The plain ledger: "It knows the sheet and the blocks per day", and looks at
//! neither the position nor the report.

use super::report::Holders;
use super::sheet::{Lock, Sheet};
use std::collections::BTreeMap;

/// "entries (transaction, destination, block b)".
#[derive(Clone, Copy, Debug, PartialEq, Eq)]
pub struct Entry {
    pub transaction: u8,
    pub destination: u8,
    pub block: u32,
}

/// The last entry of each coin, named by its opening; "at first none".
type Kept = BTreeMap<u8, Entry>;

/// The holders by the ledger, or None where the list is refused. It "takes
/// entries ... by block and then number".
pub fn holders(sheet: &Sheet, blocks_per_day: u32, entries: &[Entry]) -> Option<Holders> {
    let mut ordered = entries.to_vec();
    ordered.sort_by_key(|entry| (entry.block, entry.transaction));
    let mut kept = Kept::new();
    for entry in ordered {
        if !fits(sheet, blocks_per_day, &kept, &entry) {
            return None;
        }
        // "Then the entry is kept in place of the coin's last one."
        kept.insert(sheet.coin(entry.transaction), entry);
    }
    // "The holder there is the kept destination, or nobody."
    let holder = |coin: u8| kept.get(&coin).map(|entry| entry.destination);
    let coins = sheet.coins().into_iter();
    Some(coins.map(|coin| (coin, holder(coin))).collect())
}

/// "An opening needs none kept for its coin, a spend its parent's entry kept, in
/// a block p. The lock (0, the product, or p plus it) must be below b." A number
/// beyond the sheet is neither.
fn fits(sheet: &Sheet, blocks_per_day: u32, kept: &Kept, entry: &Entry) -> bool {
    if entry.transaction >= sheet.count() {
        return false;
    }
    let transaction = sheet.transaction(entry.transaction);
    let last = kept.get(&sheet.coin(entry.transaction));
    let parent_block = match (transaction.parent, last) {
        (None, None) => 0,
        (Some(parent), Some(last)) if last.transaction == parent => u64::from(last.block),
        _ => return false,
    };
    let product = |days: u8| u64::from(days) * u64::from(blocks_per_day);
    let lock = match transaction.lock {
        Lock::None => 0,
        Lock::Absolute { days } => product(days),
        Lock::SinceParent { days } => parent_block + product(days),
    };
    lock < u64::from(entry.block)
}
