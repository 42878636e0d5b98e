//! The position, and the heights in it.

use super::contract::{Contract, Lock, Transaction};
use super::{bits, MOST, NEVER, NUMBERS};

/// As many bytes as the library's, so that a copy of it is as large.
pub struct Position {
    /// The transactions in the pool, in the block being filled, and confirmed.
    pub pool: u32,
    pub block: u32,
    pub confirmed: u32,
    /// The destinations of these entries.
    pub pool_to: [u8; MOST],
    pub block_to: [u8; MOST],
    pub confirmed_to: [u8; MOST],
    /// The block of a confirmation, 0 while there is none.
    pub height: [u16; MOST],
    /// The signatures shared for each destination.
    pub shared: [[u8; NUMBERS]; MOST],
    /// The signatures shared of any transaction.
    pub shared_any: u8,
    /// The shares that each party has made for each destination.
    pub made: [[u32; NUMBERS]; NUMBERS],
    /// The keys held by each party.
    pub held: [u8; NUMBERS],
    /// The blocks mined.
    pub mined: u32,
    /// What the fields above leave of the library's size.
    _room: [u8; 16],
}

impl Position {
    /// The position before any step.
    pub fn new(contract: &Contract) -> Position {
        Position {
            pool: 0,
            block: 0,
            confirmed: 0,
            pool_to: [0; MOST],
            block_to: [0; MOST],
            confirmed_to: [0; MOST],
            height: [0; MOST],
            shared: [[0; NUMBERS]; MOST],
            shared_any: 0,
            made: [[0; NUMBERS]; NUMBERS],
            held: contract.held,
            mined: 0,
            _room: [0; 16],
        }
    }

    /// "A sender has: keys held, every secret in shared knowledge, and signatures shared for the same transaction and
    /// destination."
    pub fn signatures(&self, contract: &Contract, sender: u8, t: usize, to: u8) -> u8 {
        let secrets = self.shared_any & contract.secrets;
        self.held[usize::from(sender)] | secrets | self.shared[t][usize::from(to)]
    }

    /// The signatures become shared for the transaction and destination.
    pub fn share(&mut self, t: usize, to: u8, signatures: u8) {
        self.shared[t][usize::from(to)] |= signatures;
        self.shared_any |= signatures;
    }

    /// "Lock height: 0; or days × blocks per day; or, for type 2, the parent's block plus that product, 2147483647
    /// ("never") while the parent is unconfirmed."
    pub fn lock_height(&self, x: &Transaction) -> u32 {
        match x.lock {
            Lock::None => 0,
            Lock::Absolute(blocks) => blocks,
            Lock::SinceParent(blocks) => match self.height[x.parent] {
                0 => NEVER,
                block => u32::from(block) + blocks,
            },
        }
    }

    /// "Deadline: the least rival lock height above one's own, else never."
    pub fn deadline(&self, contract: &Contract, x: &Transaction) -> u32 {
        let own = self.lock_height(x);
        bits(x.rivals)
            .map(|rival| self.lock_height(&contract.transactions[rival]))
            .filter(|&height| height > own)
            .min()
            .unwrap_or(NEVER)
    }

    /// Whether a bump is owed: "a pool entry is outside the block and blocks mined + 1 is its deadline".
    pub fn owed(&self, contract: &Contract, t: usize) -> bool {
        let waits = (self.pool & !self.block) >> t & 1 == 1;
        waits && self.mined + 1 == self.deadline(contract, &contract.transactions[t])
    }

    /// Whether any bump is owed.
    pub fn any_owed(&self, contract: &Contract) -> bool {
        bits(self.pool & !self.block).any(|t| self.owed(contract, t))
    }
}
