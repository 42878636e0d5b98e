//! Names and words for numbers.

use crate::model::heights::NEVER;
use crate::model::sheet::{self, Sheet};
use crate::model::{ALICE, BOB, CAROL, CONTRACT};

/// "The SASwap sheet": the names of its transactions.
const TRANSACTIONS: [&str; 15] = [
    "lock_A",
    "lock_B",
    "success",
    "refund_1",
    "revoke",
    "refund_2",
    "timeout",
    "spend_A",
    "spend_B",
    "spend_success",
    "spend_refund_1_bob",
    "spend_refund_1_alice",
    "spend_revoke",
    "spend_refund_2",
    "spend_timeout",
];
/// "signature bits 1 sigAlice, 2 sigBob, 4 secretAlice, 8 secretBob".
const SIGNATURES: [&str; 4] = ["sigAlice", "sigBob", "secretAlice", "secretBob"];

/// The names that `include/swap.h` gives the refusals, and the calendar's words for them.
const REFUSALS: [(&str, &str); 24] = [
    ("SHEET_SHORT", "sheet under 5 bytes, or 6 of three parties"),
    ("SHEET_COUNT", "number of transactions outside 1 to 32"),
    (
        "SHEET_SIGNATURES",
        "number of signatures outside 1 to 8, or a head mask beyond it",
    ),
    (
        "SHEET_LENGTH",
        "length of the sheet not 5, or 6 of three parties, + 6 for each transaction",
    ),
    ("SHEET_PARENT", "parent neither 255 nor lower"),
    ("SHEET_ENTRY", "payees, needs or veil out of range"),
    (
        "SHEET_LOCK",
        "lock out of range, or since a parent that is not there",
    ),
    (
        "SHEET_CHILDREN",
        "payees 0 without child, or payees with child",
    ),
    (
        "SETUP_BLOCKS",
        "setup not 4 bytes, or blocks per day out of range",
    ),
    (
        "SETUP_CONDUCT",
        "conduct or stealth out of range, or sheet unfit for the conduct",
    ),
    ("STEP_FIELD", "step field out of range for its kind"),
    ("STEP_STEALTH", "hand-in to the miner without stealth"),
    (
        "STEP_CONDUCT",
        "not open to the party by its conduct, or share or give not met",
    ),
    ("STEP_CONFLICT", "a rival stands in the way"),
    ("STEP_PARENT", "the parent is not there"),
    ("STEP_SIGNATURES", "signatures are missing"),
    ("STEP_LOCK", "the lock height is not reached"),
    ("STEP_DEADLINE", "the deadline is reached"),
    ("STEP_POOL", "not in the pool"),
    ("STEP_BUMP_OWED", "a bump is owed"),
    ("STEP_NOT_OWED", "no bump of it is owed"),
    (
        "STEP_EMPTY_BLOCK",
        "an empty block before transaction 0 is confirmed",
    ),
    ("STEP_BLOCKS", "10,000 blocks are mined"),
    (
        "JOURNAL_LENGTH",
        "journal not a multiple of 4 bytes, or over 65,536",
    ),
];

/// The refusal of a sheet of three by its setup, 32, which stands between 9 and 10.
const SETUP_PARTIES: (&str, &str) = (
    "SETUP_PARTIES",
    "loose or careful conduct with a sheet of three parties",
);

/// The name and the words of a refusal of a swap.
pub fn refusal(number: u32) -> (&'static str, &'static str) {
    match number {
        32 => SETUP_PARTIES,
        _ => REFUSALS[number as usize - 1],
    }
}

pub fn party_name(party: u8) -> &'static str {
    match party {
        ALICE => "Alice",
        BOB => "Bob",
        CAROL => "Carol",
        _ => "the miner",
    }
}

pub fn destination_name(destination: u8) -> &'static str {
    match destination {
        CONTRACT => "contract",
        party => party_name(party),
    }
}

/// Payees, as a mask.
pub fn payees_name(sheet: &Sheet, payees: u8) -> &'static str {
    match (payees, sheet.parties.len()) {
        (0, _) => "nobody",
        (1, _) => "Alice",
        (2, _) => "Bob",
        (3, 2) => "either",
        (3, _) => "A or B",
        (4, _) => "Carol",
        (5, _) => "A or C",
        (6, _) => "B or C",
        _ => "anyone",
    }
}

/// A height of the real chain, which stood at the base before block 1; 0 is no block or no lock.
pub fn height(base: u32, height: u32) -> String {
    match height {
        NEVER => "never".to_string(),
        0 => "0".to_string(),
        _ => (base + height).to_string(),
    }
}

/// Names for the SASwap sheet, numbers for any other.
pub struct Names {
    pub saswap: bool,
}

impl Names {
    pub fn of(sheet: &[u8], blocks_per_day: u16) -> Names {
        let saswap = sheet == sheet::saswap(blocks_per_day);
        Names { saswap }
    }

    pub fn transaction(&self, t: u8) -> String {
        match self.saswap {
            true => TRANSACTIONS[usize::from(t)].to_string(),
            false => format!("transaction {t}"),
        }
    }

    pub fn signature(&self, number: u8) -> String {
        match self.saswap {
            true => SIGNATURES[usize::from(number)].to_string(),
            false => format!("signature {number}"),
        }
    }
}
