//! When each transaction was first open: Slip 9.

use super::contract::Contract;
use super::position::Position;
use super::{bits, CONTRACT, MOST, NEVER};

/// The blocks mined when each transaction was first open, and those that were not yet.
pub struct Opened {
    pub counts: [u32; MOST],
    left: u32,
}

impl Opened {
    /// The counts in the position before any step.
    pub fn new<const NOTE: bool>(contract: &Contract, position: &Position) -> Opened {
        let mut opened = Opened {
            counts: [NEVER; MOST],
            left: u32::MAX >> (MOST - contract.count),
        };
        opened.note::<NOTE>(contract, position);
        opened
    }

    /// The counts once a position is seen.
    pub fn note<const NOTE: bool>(&mut self, contract: &Contract, position: &Position) {
        if !NOTE {
            return;
        }
        for t in bits(self.left) {
            if is_open(contract, position, t) {
                self.counts[t] = position.mined;
                self.left &= !(1 << t);
            }
        }
    }
}

/// "Open means: no rival confirmed, parent confirmed or none, lock reached, and signatures at hand for some party, for
/// destination 2 or, in a paying one, for itself as a payee."
fn is_open(contract: &Contract, position: &Position, t: usize) -> bool {
    let x = &contract.transactions[t];
    let signed = |party: u8| {
        let to = match x.payees {
            0 => CONTRACT,
            _ if contract.pays[usize::from(party)] >> t & 1 == 1 => party,
            _ => return false,
        };
        x.needs & !position.signatures(contract, party, t, to) == 0
    };
    position.confirmed & x.parent_mask == x.parent_mask
        && position.confirmed & x.rivals == 0
        && position.lock_height(x) <= position.mined
        && contract.parties.iter().any(|&party| signed(party))
}
