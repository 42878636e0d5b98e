//! Slip 8, "Check another firm's block list": 29, 30, 31 after the sheet and the
//! setup, and the slip's own words on parents, rivals and locks.

use super::ledger::{self, Entry};
use super::setup::{self, Setup};
use super::sheet::{self, Lock, Sheet};
use super::{calls, CONTRACT};

/// "a block is outside 1 to 10,000".
const MOST_BLOCKS: u32 = 10_000;

/// "A list has 4 bytes for each entry: transaction, destination, block (2
/// bytes)." Bytes after the last whole entry are none.
pub fn entries(list: &[u8]) -> Vec<Entry> {
    let entry = |bytes: &[u8]| Entry {
        transaction: bytes[0],
        destination: bytes[1],
        block: u32::from(u16::from_le_bytes([bytes[2], bytes[3]])),
    };
    list.chunks_exact(4).map(entry).collect()
}

/// The list that these entries are.
pub fn bytes(entries: &[Entry]) -> Vec<u8> {
    let bytes = |entry: &Entry| {
        let [low, high] = (entry.block as u16).to_le_bytes();
        [entry.transaction, entry.destination, low, high]
    };
    entries.iter().flat_map(bytes).collect()
}

/// "a transaction isn't in the sheet, or a destination isn't 2 for a contract
/// transaction or a payee for a paying one".
fn misnamed(sheet: &Sheet, entry: &Entry) -> bool {
    if entry.transaction >= sheet.count() {
        return true;
    }
    match sheet.is_contract(entry.transaction) {
        true => entry.destination != CONTRACT,
        false => !sheet.is_payee(entry.transaction, entry.destination),
    }
}

/// 29: "when the length isn't a multiple of 4, or .." an entry is misnamed.
pub fn field_wrong(sheet: &Sheet, list: &[u8]) -> bool {
    list.len() % 4 != 0 || entries(list).iter().any(|entry| misnamed(sheet, entry))
}

/// 30: "when entries don't rise by block and then transaction, or a block is
/// outside 1 to 10,000".
pub fn order_wrong(entries: &[Entry]) -> bool {
    let place = |entry: &Entry| (entry.block, entry.transaction);
    let falls = entries
        .windows(2)
        .any(|two| place(&two[0]) >= place(&two[1]));
    let outside = |entry: &Entry| !(1..=MOST_BLOCKS).contains(&entry.block);
    falls || entries.iter().any(outside)
}

/// The slip's own words of the entry at a place. "A parent must be in an earlier
/// block, or in the same block unless the lock is since the parent." "Locks are
/// measured as for a step: blocks before the entry's block count as mined." And
/// no rival, itself included, stands before it.
fn stands(sheet: &Sheet, setup: &Setup, entries: &[Entry], place: usize) -> bool {
    let entry = &entries[place];
    let transaction = sheet.transaction(entry.transaction);
    let rivals = sheet.rivals(entry.transaction);
    if entries[..place]
        .iter()
        .any(|other| rivals.contains(&other.transaction))
    {
        return false;
    }
    let since_parent = matches!(transaction.lock, Lock::SinceParent { .. });
    let there = |other: &&Entry| {
        Some(other.transaction) == transaction.parent
            && (other.block < entry.block || other.block == entry.block && !since_parent)
    };
    let parent = entries.iter().find(there);
    if transaction.parent.is_some() && parent.is_none() {
        return false;
    }
    let product = |days: u8| u32::from(days) * setup.blocks_per_day;
    let lock_height = match (transaction.lock, parent) {
        (Lock::None, _) => 0,
        (Lock::Absolute { days }, _) => product(days),
        (Lock::SinceParent { days }, Some(parent)) => parent.block + product(days),
        (Lock::SinceParent { .. }, None) => return false,
    };
    lock_height < entry.block
}

/// The slip's own words of every entry of a list that passed 29 and 30.
pub fn all_stand(sheet: &Sheet, setup: &Setup, entries: &[Entry]) -> bool {
    (0..entries.len()).all(|place| stands(sheet, setup, entries, place))
}

/// 31: "when the ledger refuses the list".
pub fn ledger_refuses(sheet: &Sheet, setup: &Setup, entries: &[Entry]) -> bool {
    ledger::holders(sheet, setup.blocks_per_day, entries).is_none()
}

/// Check a block list: "It comes with a sheet and a setup, which are tested
/// first."
pub fn check(sheet: &[u8], setup: &[u8], list: &[u8]) -> u32 {
    let read = || {
        let read_sheet = sheet::read(sheet)?;
        let read_setup = setup::read(sheet, setup)?;
        Ok((read_sheet, read_setup))
    };
    let (sheet, setup) = match read() {
        Err(number) => return number,
        Ok(read) => read,
    };
    let entries = entries(list);
    if field_wrong(&sheet, list) {
        29
    } else if order_wrong(&entries) {
        30
    } else if ledger_refuses(&sheet, &setup, &entries) {
        31
    } else {
        0
    }
}

/// The number that C gets.
pub fn check_number(sheet: &[u8], setup: &[u8], list: &[u8]) -> u32 {
    calls::number(check(sheet, setup, list), 0)
}
