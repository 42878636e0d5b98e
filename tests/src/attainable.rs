//! What can come without a party: the transactions that the others and the miner can bring into a block while it takes no
//! step, or none but sends of some transactions.

use crate::model::conduct::{REFUND_1, REFUND_2, SECRET_BOB, SUCCESS};
use crate::model::heights;
use crate::model::position::{within, Position};
use crate::model::setup::{Conduct, Setup};
use crate::model::sheet::Sheet;
use crate::model::{ALICE, BOB, CONTRACT};
use std::collections::BTreeSet;

/// A position as those see it who act without a party.
#[derive(Clone, Debug)]
pub struct Others<'a> {
    pub sheet: &'a Sheet,
    pub position: &'a Position,
    /// The party that takes no step, X.
    pub party: u8,
    /// "Never sent by the others."
    pub never: BTreeSet<u8>,
}

/// "under careful conduct .. refund_1 once success has a shared entry, refund_2 once Alice holds secretBob": what a careful Alice no
/// longer sends.
fn forgone(setup: &Setup, position: &Position) -> BTreeSet<u8> {
    let shared = position.shared.keys().any(|&(t, _)| t == SUCCESS);
    let refunds = [
        (REFUND_1, shared),
        (REFUND_2, position.holds(ALICE, SECRET_BOB)),
    ];
    let masked = refunds.into_iter().filter(|&(_, on)| on).map(|(t, _)| t);
    match setup.conduct {
        Conduct::Careful => masked.collect(),
        _ => BTreeSet::new(),
    }
}

impl<'a> Others<'a> {
    /// "Never sent by the others: without stealth, every transaction whose deadline is ≤ m; under careful conduct, X being
    /// Bob: refund_1 once success has a shared entry, refund_2 once Alice holds secretBob."
    pub fn of(sheet: &'a Sheet, setup: &Setup, position: &'a Position, party: u8) -> Others<'a> {
        let due = |&t: &u8| heights::deadline(sheet, setup, position, t) <= position.mined;
        let mut never: BTreeSet<u8> = match setup.stealth {
            true => BTreeSet::new(),
            false => (0..sheet.count()).filter(due).collect(),
        };
        if party == BOB {
            never.extend(forgone(setup, position));
        }
        Others {
            sheet,
            position,
            party,
            never,
        }
    }

    /// "Gone: confirmed or dead."
    pub fn gone(&self, t: u8) -> bool {
        self.position.is_confirmed(t) || heights::dead(self.sheet, self.position, t)
    }

    /// "The secrets of t: required(t) ∩ the sheet's secrets, none if t is veiled."
    pub fn secrets(&self, t: u8) -> u8 {
        let transaction = self.sheet.transaction(t);
        match transaction.veil {
            true => 0,
            false => transaction.needs & self.sheet.secrets,
        }
    }

    /// "Keys of all the others."
    fn keys(&self) -> u8 {
        let others = self.sheet.parties.iter().filter(|&&p| p != self.party);
        others.fold(0, |mask, &p| mask | self.position.held[usize::from(p)])
    }

    /// "Known: the shared secrets and the secrets of the members."
    fn known(&self, members: &BTreeSet<u8>) -> u8 {
        let shared = self.position.shared_secrets(self.sheet);
        members
            .iter()
            .fold(shared, |mask, &t| mask | self.secrets(t))
    }

    /// The destinations that a transaction can go to.
    fn destinations(&self, t: u8) -> Vec<u8> {
        match self.sheet.is_contract(t) {
            true => vec![CONTRACT],
            false => self.sheet.payees(t),
        }
    }

    /// "required(t) ⊆ keys of all the others ∪ known ∪ shared(t, d) for some destination d other than X".
    fn signs(&self, t: u8, members: &BTreeSet<u8>) -> bool {
        let destinations = self.destinations(t).into_iter();
        let mut others = destinations.filter(|&d| d != self.party);
        others.any(|d| {
            let shared = self.position.shared.get(&(t, d)).copied().unwrap_or(0);
            let have = self.keys() | self.known(members) | shared;
            within(self.sheet.transaction(t).needs, have)
        })
    }

    /// "t not gone; its parent none, confirmed or in the set".
    fn follows(&self, t: u8, members: &BTreeSet<u8>) -> bool {
        let there = |parent: u8| self.position.is_confirmed(parent) || members.contains(&parent);
        !self.gone(t) && self.sheet.transaction(t).parent.is_none_or(there)
    }

    /// "not among those never sent with required(t) ⊆ .."
    fn sends(&self, t: u8, members: &BTreeSet<u8>) -> bool {
        !self.never.contains(&t) && self.signs(t, members)
    }

    /// "can(U), the least set with: t not gone; its parent none, confirmed or in the set; and t in pool, block or U, or not
    /// among those never sent with required(t) ⊆ keys of all the others ∪ known ∪ shared(t, d) for some destination d other
    /// than X."
    pub fn can(&self, also: &BTreeSet<u8>) -> BTreeSet<u8> {
        let mut members = BTreeSet::new();
        loop {
            let joins = |&t: &u8| {
                let waits = self.position.in_pool(t) || self.position.in_block(t);
                let comes = waits || also.contains(&t) || self.sends(t, &members);
                !members.contains(&t) && self.follows(t, &members) && comes
            };
            let found: Vec<u8> = (0..self.sheet.count()).filter(joins).collect();
            if found.is_empty() {
                return members;
            }
            members.extend(found);
        }
    }

    /// "can'(U): those for which this holds with a destination other than X." X sends its own for itself, or the contract.
    pub fn elsewhere(&self, also: &BTreeSet<u8>) -> BTreeSet<u8> {
        let members = self.can(also);
        let holds = |&t: &u8| {
            let pool = self.position.pool.get(&t);
            let block = self.position.block.get(&t);
            let waits = [pool, block]
                .into_iter()
                .flatten()
                .any(|&d| d != self.party);
            let lent = also.contains(&t) && self.sheet.is_contract(t);
            self.follows(t, &members) && (waits || lent || self.sends(t, &members))
        };
        (0..self.sheet.count()).filter(holds).collect()
    }
}

/// "Without X: no step of kinds 1 to 4 has X as its party."
pub fn is_without(party: u8, step: &[u8; 4]) -> bool {
    !((1..=4).contains(&step[0]) && step[1] == party)
}
