//! Slip 11, "When could this ending come at the earliest?": 33 and 34 after the
//! sheet and the setup, and the block list that is written.

use super::block_list;
use super::ledger::Entry;
use super::setup::{self, Setup};
use super::sheet::{self, Lock, Sheet};
use super::CONTRACT;
use std::collections::{BTreeMap, BTreeSet};

/// "a block is outside 1 to 10,000", in Slip 8.
const MOST_BLOCKS: u32 = 10_000;

/// The transactions that a mask names, "bit 0 for transaction 0".
fn named(mask: u32) -> Vec<u8> {
    (0..32).filter(|&t| mask >> t & 1 == 1).collect()
}

/// The destinations by transaction, or None under 33: "when the mask names a
/// number beyond the sheet or a contract transaction, or a destination isn't a
/// payee, or their list isn't 4 bytes for each bit set".
fn destinations(sheet: &Sheet, mask: u32, list: &[u8]) -> Option<BTreeMap<u8, u8>> {
    let named = named(mask);
    if list.len() != 4 * named.len() {
        return None;
    }
    let numbers = list.chunks_exact(4).map(|four| {
        let four: [u8; 4] = four.try_into().expect("four bytes");
        u32::from_le_bytes(four)
    });
    let payee = |(t, number): (u8, u32)| {
        let party = u8::try_from(number).ok()?;
        let right = t < sheet.count() && !sheet.is_contract(t) && sheet.is_payee(t, party);
        right.then_some((t, party))
    };
    named.into_iter().zip(numbers).map(payee).collect()
}

/// The earliest block of a transaction: no earlier than its parent's, and behind
/// its lock.
pub fn earliest(sheet: &Sheet, setup: &Setup, t: u8) -> u32 {
    let transaction = sheet.transaction(t);
    let parent = transaction.parent.map(|up| earliest(sheet, setup, up));
    let product = |days: u8| u32::from(days) * setup.blocks_per_day;
    let least = parent.unwrap_or(1);
    match transaction.lock {
        Lock::None => least,
        Lock::Absolute { days } => least.max(product(days) + 1),
        Lock::SinceParent { days } => least + product(days) + 1,
    }
}

/// "the block list that confirms them and their ancestors, each at its earliest
/// block, in the order of Slip 8", or the number.
pub fn list(sheet: &[u8], setup: &[u8], mask: u32, dests: &[u8]) -> Result<Vec<Entry>, u32> {
    let read_sheet = sheet::read(sheet)?;
    let read_setup = setup::read(sheet, setup)?;
    let dests = destinations(&read_sheet, mask, dests).ok_or(33_u32)?;
    let lines = dests.keys().flat_map(|&t| read_sheet.line(t).clone());
    let planned: BTreeSet<u8> = lines.collect();
    let entry = |&t: &u8| Entry {
        transaction: t,
        destination: dests.get(&t).copied().unwrap_or(CONTRACT),
        block: earliest(&read_sheet, &read_setup, t),
    };
    let mut entries: Vec<Entry> = planned.iter().map(entry).collect();
    entries.sort_by_key(|entry| (entry.block, entry.transaction));
    // 34: two of one coin, whose lines have rivals, or a block beyond the last
    let coins: BTreeSet<u8> = dests.keys().map(|&t| read_sheet.coin(t)).collect();
    let late = entries.iter().any(|entry| entry.block > MOST_BLOCKS);
    match coins.len() < dests.len() || late {
        true => Err(34),
        false => Ok(entries),
    }
}

/// "The answer has the entries written, 0 when refused. 25 is tested last."
pub fn write_number(sheet: &[u8], setup: &[u8], mask: u32, dests: &[u8], output: &mut [u8]) -> u32 {
    let entries = match list(sheet, setup, mask, dests) {
        Err(number) => return number * 65_536,
        Ok(entries) => entries,
    };
    let bytes = block_list::bytes(&entries);
    match output.get_mut(..bytes.len()) {
        None => 25 * 65_536,
        Some(part) => {
            part.copy_from_slice(&bytes);
            entries.len() as u32
        }
    }
}
