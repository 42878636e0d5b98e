//! What an outage of our box can cost: the soonest block and the soonest deadline of each transaction, over the chain
//! alone, and the verdict of an outage of the next k blocks.

use super::heights::{self, NEVER};
use super::position::Position;
use super::setup::Setup;
use super::sheet::{Lock, Sheet};
use std::cmp::max;

/// "A row of 10 bytes for each transaction."
pub const ROW: usize = 10;

/// The parts of a verdict, "a sum: 1 confirmed or dead; 2 safe in the pool; 4 covered; 8 passed".
pub const SETTLED: u8 = 1;
pub const SAFE_IN_POOL: u8 = 2;
pub const COVERED: u8 = 4;
pub const PASSED: u8 = 8;

/// "product = days x blocks per day".
fn product(setup: &Setup, days: u8) -> u32 {
    u32::from(days) * setup.blocks_per_day
}

/// The lock where the parent is in block e: "the lock being 0, the product, or e plus it (since the parent)".
fn lock_at(sheet: &Sheet, setup: &Setup, e: u32, t: u8) -> u32 {
    match sheet.transaction(t).lock {
        Lock::None => 0,
        Lock::Absolute { days } => product(setup, days),
        Lock::SinceParent { days } => e + product(setup, days),
    }
}

/// "soonest block of t: its block where confirmed; else the greatest of m + 1, e, and its lock + 1 .. Recursion up the
/// sheet."
pub fn soonest_block(sheet: &Sheet, setup: &Setup, position: &Position, t: u8) -> u32 {
    match position.confirmed.get(&t) {
        Some(confirmation) => confirmation.block,
        None => {
            let e = soonest_parent(sheet, setup, position, t);
            let lock = lock_at(sheet, setup, e, t);
            max(position.mined + 1, max(e, lock + 1))
        }
    }
}

/// "e = the parent's soonest block, 0 for an opening".
fn soonest_parent(sheet: &Sheet, setup: &Setup, position: &Position, t: u8) -> u32 {
    match sheet.transaction(t).parent {
        None => 0,
        Some(parent) => soonest_block(sheet, setup, position, parent),
    }
}

/// "soonest deadline of t: the least, over its rivals r, of what counts at r .. An opening: never."
pub fn soonest_deadline(sheet: &Sheet, setup: &Setup, position: &Position, t: u8) -> u32 {
    match sheet.transaction(t).parent {
        None => NEVER,
        Some(_) => {
            let rivals = sheet.rivals(t).iter();
            let counting = rivals.map(|&r| counts_at(sheet, setup, position, t, r));
            counting.min().expect("itself at least")
        }
    }
}

/// "with own and his lock taken at the parent's block e, his where it is above own; else own + 1 where the parent is
/// unconfirmed, r's lock is since the parent and t's is not; else never".
fn counts_at(sheet: &Sheet, setup: &Setup, position: &Position, t: u8, r: u8) -> u32 {
    let e = soonest_parent(sheet, setup, position, t);
    let own = lock_at(sheet, setup, e, t);
    let his = lock_at(sheet, setup, e, r);
    let since_parent = |t: u8| matches!(sheet.transaction(t).lock, Lock::SinceParent { .. });
    if his > own {
        his
    } else if !parent_confirmed(sheet, position, t) && since_parent(r) && !since_parent(t) {
        own + 1
    } else {
        NEVER
    }
}

/// Whether the parent is confirmed, "or t is an opening".
fn parent_confirmed(sheet: &Sheet, position: &Position, t: u8) -> bool {
    let parent = sheet.transaction(t).parent;
    parent.map_or(true, |parent| position.is_confirmed(parent))
}

/// The verdict of an outage of k blocks. "t confirmed or dead: exactly 1. Else t in the pool, and its parent confirmed
/// (or t is an opening): exactly 2. Else 4 if D <= m + k and (m < D or stealth is 1), plus 8 if D <= m." Numbers without
/// bound: D is 2147483647 where it is never, and an outage of that many blocks covers it.
pub fn verdict(sheet: &Sheet, setup: &Setup, position: &Position, blocks: u32, t: u8) -> u8 {
    let (k, m) = (u64::from(blocks), u64::from(position.mined));
    let deadline = u64::from(soonest_deadline(sheet, setup, position, t));
    if position.is_confirmed(t) || heights::dead(sheet, position, t) {
        SETTLED
    } else if position.in_pool(t) && parent_confirmed(sheet, position, t) {
        SAFE_IN_POOL
    } else {
        let covered = deadline <= m + k && (m < deadline || setup.stealth);
        let passed = deadline <= m;
        COVERED * u8::from(covered) + PASSED * u8::from(passed)
    }
}

/// "the payees of t and of every transaction below it, as a mask (the sheet's payees bytes, or-ed)".
pub fn payees_below(sheet: &Sheet, t: u8) -> u8 {
    let all = 0..sheet.count();
    let below = all.filter(|&u| sheet.line(u).contains(&t));
    below.fold(0, |mask, u| mask | sheet.transaction(u).payees)
}

/// "byte 0, the verdict; byte 1: the payees; bytes 2 to 5: soonest block, little endian; 2147483647 for a dead one;
/// bytes 6 to 9: soonest deadline".
pub fn row(sheet: &Sheet, setup: &Setup, position: &Position, blocks: u32, t: u8) -> [u8; ROW] {
    let soonest = match heights::dead(sheet, position, t) {
        true => NEVER,
        false => soonest_block(sheet, setup, position, t),
    };
    let deadline = soonest_deadline(sheet, setup, position, t);
    let mut bytes = [0; ROW];
    bytes[0] = verdict(sheet, setup, position, blocks, t);
    bytes[1] = payees_below(sheet, t);
    bytes[2..6].copy_from_slice(&soonest.to_le_bytes());
    bytes[6..10].copy_from_slice(&deadline.to_le_bytes());
    bytes
}

/// The rows of all transactions.
pub fn bytes(sheet: &Sheet, setup: &Setup, position: &Position, blocks: u32) -> Vec<u8> {
    (0..sheet.count())
        .flat_map(|t| row(sheet, setup, position, blocks, t))
        .collect()
}
