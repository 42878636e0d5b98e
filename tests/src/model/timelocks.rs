//! Slip 4, "Locks in Bitcoin's own fields": nLockTime and nSequence of each
//! transaction; and Bitcoin's rule on heights that reads them, from its public
//! description and BIP 68.

use super::setup::{self, Setup};
use super::sheet::{self, Lock, Sheet};

/// The two numbers of a transaction, as wide as they come.
#[derive(Clone, Copy, Debug, PartialEq, Eq)]
pub struct Fields {
    pub lock_time: u64,
    pub sequence: u64,
}

/// "No lock: 0 and FFFFFFFF (hexadecimal). Absolute: base plus lock height, and
/// FFFFFFFE. Since the parent: 0 and days × blocks per day + 1".
pub fn fields(lock: Lock, setup: &Setup, base: u32) -> Fields {
    let product = |days: u8| u64::from(days) * u64::from(setup.blocks_per_day);
    let (lock_time, sequence) = match lock {
        Lock::None => (0, 0xffff_ffff),
        Lock::Absolute { days } => (u64::from(base) + product(days), 0xffff_fffe),
        Lock::SinceParent { days } => (0, product(days) + 1),
    };
    Fields {
        lock_time,
        sequence,
    }
}

/// 26: "when a since-parent value is above 65,535".
fn relative_wrong(sheet: &Sheet, setup: &Setup, base: u32) -> bool {
    let mut locks = sheet.transactions.iter().map(|t| t.lock);
    locks.any(|lock| {
        matches!(lock, Lock::SinceParent { .. }) && fields(lock, setup, base).sequence > 65_535
    })
}

/// 27: "when base plus an absolute lock's height reaches 500,000,000".
fn absolute_wrong(sheet: &Sheet, setup: &Setup, base: u32) -> bool {
    let mut locks = sheet.transactions.iter().map(|t| t.lock);
    locks.any(|lock| {
        matches!(lock, Lock::Absolute { .. }) && fields(lock, setup, base).lock_time >= 500_000_000
    })
}

/// The numbers of every transaction, or the refusal: the sheet's, the setup's,
/// 26 "after the setup and before 27", 27.
pub fn all_fields(sheet: &[u8], setup: &[u8], base: u32) -> Result<Vec<Fields>, u32> {
    let read_sheet = sheet::read(sheet)?;
    let read_setup = setup::read(sheet, setup)?;
    if relative_wrong(&read_sheet, &read_setup, base) {
        return Err(26);
    }
    if absolute_wrong(&read_sheet, &read_setup, base) {
        return Err(27);
    }
    let locks = read_sheet.transactions.iter().map(|t| t.lock);
    Ok(locks.map(|lock| fields(lock, &read_setup, base)).collect())
}

/// "each transaction yields two 4-byte numbers".
pub fn bytes(all: &[Fields]) -> Vec<u8> {
    let four = |number: u64| {
        let number = u32::try_from(number).expect("four bytes");
        number.to_le_bytes()
    };
    all.iter()
        .flat_map(|fields| [four(fields.lock_time), four(fields.sequence)])
        .flatten()
        .collect()
}

/// The number that C gets. "25 covers a short buffer; it is tested last."
pub fn number(sheet: &[u8], setup: &[u8], base: u32, output: &mut [u8]) -> u32 {
    let refusal = match all_fields(sheet, setup, base) {
        Err(refusal) => refusal,
        Ok(all) => super::calls::write(output, &bytes(&all)),
    };
    super::calls::number(refusal, 0)
}

/// A block of Bitcoin's: its height, and the median time past before it.
#[derive(Clone, Copy, Debug, PartialEq, Eq)]
pub struct Block {
    pub height: i64,
    pub time: i64,
}

/// Whether nLockTime lets a transaction of one input into a block: it is 0, or
/// below the block's height, or its time from 500,000,000 on, or the input is
/// final.
fn is_final(lock_time: u32, sequence: u32, at: Block) -> bool {
    let limit = if lock_time < 500_000_000 {
        at.height
    } else {
        at.time
    };
    lock_time == 0 || i64::from(lock_time) < limit || sequence == 0xffff_ffff
}

/// BIP 68, from version 2 on: "minimum height", or time, of the last block that
/// may not have the transaction; -1 where there is none.
fn last_locked(version: i32, sequence: u32, parent: Block) -> (i64, i64) {
    if version < 2 || sequence & (1 << 31) != 0 {
        return (-1, -1);
    }
    let value = i64::from(sequence & 0xffff);
    if sequence & (1 << 22) != 0 {
        (-1, parent.time + (value << 9) - 1)
    } else {
        (parent.height + value - 1, -1)
    }
}

/// Whether Bitcoin lets a transaction into a block, its parent being in another.
pub fn admitted(version: i32, lock_time: u32, sequence: u32, parent: Block, at: Block) -> bool {
    let (height, time) = last_locked(version, sequence, parent);
    is_final(lock_time, sequence, at) && height < at.height && time < at.time
}

/// "exactly when the model's lock does": 0, the product, or the parent's block
/// plus it, is at most the blocks mined before block b.
pub fn lock_reached(lock: Lock, setup: &Setup, parent: i64, b: i64) -> bool {
    let product = |days: u8| i64::from(days) * i64::from(setup.blocks_per_day);
    let height = match lock {
        Lock::None => 0,
        Lock::Absolute { days } => product(days),
        Lock::SinceParent { days } => parent + product(days),
    };
    height < b
}
