//! The position: "for each of 32 transactions, its pool entry, block entry,
//! confirmation and shared knowledge; beside these the blocks mined, each
//! party's keys held and the shares it has made".

use super::sheet::Sheet;
use std::collections::{BTreeMap, BTreeSet};

/// The confirmation of a transaction.
#[derive(Clone, Copy, Debug, PartialEq, Eq, Hash)]
pub struct Confirmation {
    pub destination: u8,
    /// "Blocks are numbered from 1."
    pub block: u32,
}

#[derive(Clone, Debug, PartialEq, Eq, Hash)]
pub struct Position {
    /// The pool entries: the destination for each transaction in the pool.
    pub pool: BTreeMap<u8, u8>,
    /// The entries of the block being filled, likewise.
    pub block: BTreeMap<u8, u8>,
    pub confirmed: BTreeMap<u8, Confirmation>,
    /// Shared knowledge: the mask shared for a transaction and a destination.
    /// An entry is never an empty mask.
    pub shared: BTreeMap<(u8, u8), u8>,
    /// The blocks mined.
    pub mined: u32,
    /// The masks of keys held, by party number; the miner, number 2, holds none.
    pub held: [u8; 4],
    /// The shares made: party, transaction, destination.
    pub shares: BTreeSet<(u8, u8, u8)>,
}

impl Position {
    /// The position before any step.
    pub fn fresh(sheet: &Sheet) -> Position {
        Position {
            pool: BTreeMap::new(),
            block: BTreeMap::new(),
            confirmed: BTreeMap::new(),
            shared: BTreeMap::new(),
            mined: 0,
            held: sheet.held,
            shares: BTreeSet::new(),
        }
    }

    pub fn in_pool(&self, t: u8) -> bool {
        self.pool.contains_key(&t)
    }

    pub fn in_block(&self, t: u8) -> bool {
        self.block.contains_key(&t)
    }

    pub fn is_confirmed(&self, t: u8) -> bool {
        self.confirmed.contains_key(&t)
    }

    /// Whether a party, by its number, holds the key of this number.
    pub fn holds(&self, party: u8, signature: u8) -> bool {
        contains(self.held[usize::from(party)], signature)
    }

    /// "every secret in shared knowledge".
    pub fn shared_secrets(&self, sheet: &Sheet) -> u8 {
        self.shared.values().fold(0, |all, mask| all | mask) & sheet.secrets
    }

    /// "A sender has: keys held, every secret in shared knowledge, and signatures
    /// shared for the same transaction and destination."
    pub fn signatures(&self, sheet: &Sheet, sender: u8, t: u8, destination: u8) -> u8 {
        let shared = self.shared.get(&(t, destination)).copied().unwrap_or(0);
        self.held[usize::from(sender)] | self.shared_secrets(sheet) | shared
    }

    /// The signatures join what is shared for the transaction and destination.
    pub fn add_shared(&mut self, t: u8, destination: u8, signatures: u8) {
        if signatures != 0 {
            *self.shared.entry((t, destination)).or_insert(0) |= signatures;
        }
    }
}

/// Whether a mask has the signature of this number.
pub fn contains(mask: u8, signature: u8) -> bool {
    mask >> signature & 1 == 1
}

/// Whether each signature of the first mask is in the second.
pub fn within(first: u8, second: u8) -> bool {
    first | second == second
}
