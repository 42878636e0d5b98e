//! The open steps, in the order in which list writes them.

use super::conduct;
use super::contract::{Conduct, Contract};
use super::position::Position;
use super::step::{check_give, check_hand_in, check_include, check_mine, check_send, check_share};
use super::{bits, Checked, ALL, CONTRACT, MINER};

/// The most open steps: with three parties 9 shares and 6 sends, hand-ins or inclusions of each transaction, 2 gifts of
/// each signature, and a block.
const MOST_OPEN: usize = 497;

/// Open steps in their order.
pub struct Steps {
    steps: [[u8; 4]; MOST_OPEN],
    count: usize,
}

impl Steps {
    /// The open steps of a position.
    pub fn open(contract: &Contract, position: &Position) -> Steps {
        let mut steps = Steps {
            steps: [[0; 4]; MOST_OPEN],
            count: 0,
        };
        for &party in contract.parties {
            steps.shares(contract, position, party);
            steps.gives(contract, position, party);
            steps.sends(contract, position, party);
        }
        steps.miner(contract, position);
        steps
    }

    pub fn as_slice(&self) -> &[[u8; 4]] {
        &self.steps[..self.count]
    }

    /// Adds the step if it passed.
    fn add(&mut self, passed: Checked, step: [u8; 4]) {
        if passed.is_ok() {
            self.steps[self.count] = step;
            self.count += 1;
        }
    }

    fn shares(&mut self, contract: &Contract, position: &Position, party: u8) {
        for t in 0..contract.count {
            for to in destinations(contract, t) {
                let passed = check_share(contract, position, party, t as u8, to);
                self.add(passed, [1, party, t as u8, to]);
            }
        }
        if contract.conduct != Conduct::Open {
            let passed = check_share(contract, position, party, ALL, CONTRACT);
            self.add(passed, [1, party, ALL, CONTRACT]);
        }
    }

    fn gives(&mut self, contract: &Contract, position: &Position, party: u8) {
        for i in 0..contract.signatures {
            for &to in contract.parties.iter().filter(|&&to| to != party) {
                let passed = check_give(contract, position, party, i, to);
                self.add(passed, [2, party, i, to]);
            }
        }
    }

    /// Kinds 3 and 4.
    fn sends(&mut self, contract: &Contract, position: &Position, party: u8) {
        let own = contract.contracts | contract.pays[usize::from(party)];
        let sendable = own & conduct::sendable(contract, position, party);
        let to = |t: usize| match contract.is_contract(t) {
            true => CONTRACT,
            false => party,
        };
        for t in bits(sendable) {
            let passed = check_send(contract, position, party, t, to(t));
            self.add(passed, [3, party, t as u8, to(t)]);
        }
        for t in bits(sendable) {
            let passed = check_hand_in(contract, position, party, t, to(t));
            self.add(passed, [4, party, t as u8, to(t)]);
        }
    }

    /// Kinds 5, 6 and 7.
    fn miner(&mut self, contract: &Contract, position: &Position) {
        let owed = position.any_owed(contract);
        for t in bits(position.pool) {
            let passed = check_include(contract, position, t, owed);
            self.add(passed, [5, MINER, t as u8, CONTRACT]);
        }
        self.add(check_mine(position, owed), [6, MINER, ALL, CONTRACT]);
        for t in bits(position.pool).filter(|&t| position.owed(contract, t)) {
            self.add(Ok(()), [7, MINER, t as u8, CONTRACT]);
        }
    }
}

/// The destinations for which a transaction may be shared: the contract's, or the numbers of its payees.
fn destinations(contract: &Contract, t: usize) -> impl Iterator<Item = u8> {
    bits(match u32::from(contract.transactions[t].payees) {
        0 => 1 << CONTRACT,
        payees => payees & 3 | (payees & 4) << 1,
    })
    .map(|to| to as u8)
}
