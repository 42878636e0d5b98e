//! The calendar's rule: what an outage does to a side's transactions, and which rivals are named beside it.

use super::{Question, Start};
use crate::compare::Game;
use crate::model::heights::{self, NEVER};
use crate::model::journal::Course;
use crate::model::outage::{self, COVERED, SAFE_IN_POOL, SETTLED};
use crate::model::position::{contains, Position};
use crate::model::setup::{Conduct, Setup};
use crate::model::sheet::{payee_bit, Lock, Sheet};
use crate::model::{BOB, CONTRACT};

/// The signature number of sigBob on the SASwap sheet.
const SIG_BOB: u8 = 1;

/// The outage of one swap: "the first block", the last one, and the blocks from the next one to the end of outage and
/// margin.
#[derive(Clone, Copy, Debug, PartialEq, Eq)]
pub struct Outage {
    pub first: u32,
    pub last: u32,
    pub reach: u32,
}

impl Outage {
    pub fn of(question: &Question, setup: &Setup, mined: u32, base: Option<u32>) -> Outage {
        let length = question.blocks(setup);
        let first = match question.start {
            Start::After(blocks) => mined + 1 + blocks,
            Start::Height(from) => from - base.expect("a base"),
        };
        let last = first + length - 1;
        let end = last + question.margin;
        Outage {
            first,
            last,
            reach: end - mined,
        }
    }

    /// Of so many blocks, from the next one on.
    pub fn next(mined: u32, blocks: u32) -> Outage {
        Outage {
            first: mined + 1,
            last: mined + blocks,
            reach: blocks,
        }
    }
}

/// What an outage does to a transaction's window, for a side: heights, and no warning.
#[derive(Clone, Copy, Debug, PartialEq, Eq)]
pub enum Kind {
    /// Its soonest deadline comes before outage and margin end.
    Covered,
    /// Its deadline comes after them.
    Ahead,
    /// In the pool, and pays another party.
    Taken,
    /// In the pool: the box is not needed.
    Sent,
    /// No deadline, or a passed one: nothing at stake.
    Free,
    /// "the other side's".
    Others,
    /// Confirmed or dead.
    Settled,
}

/// A swap's sheet, setup and position.
#[derive(Clone, Copy)]
pub struct Swap<'a> {
    pub sheet: &'a Sheet,
    pub setup: &'a Setup,
    pub position: &'a Position,
}

impl<'a> Swap<'a> {
    /// After a course of a game.
    pub fn of(game: &'a Game, course: &'a Course) -> Swap<'a> {
        Swap {
            sheet: &game.sheet,
            setup: &game.setup,
            position: &course.position,
        }
    }
}

impl Swap<'_> {
    pub fn soonest_block(&self, t: u8) -> u32 {
        outage::soonest_block(self.sheet, self.setup, self.position, t)
    }

    pub fn soonest_deadline(&self, t: u8) -> u32 {
        outage::soonest_deadline(self.sheet, self.setup, self.position, t)
    }

    /// The deadline of the report.
    pub fn deadline(&self, t: u8) -> u32 {
        heights::deadline(self.sheet, self.setup, self.position, t)
    }

    /// Where the next block sends what is in it or, else, in the pool.
    pub fn sent_to(&self, t: u8) -> Option<u8> {
        let block = self.position.block.get(&t);
        block.or(self.position.pool.get(&t)).copied()
    }

    /// Who can be paid by the transaction or below it, as a mask. Under conduct sigBob is given by nobody and shared on
    /// contract transactions only, so a paying one that needs it is Bob's alone.
    pub fn can_pay(&self, t: u8) -> u8 {
        let conduct = self.setup.conduct != Conduct::Open;
        let transaction = self.sheet.transaction(t);
        match conduct && transaction.payees != 0 && contains(transaction.needs, SIG_BOB) {
            true => transaction.payees & payee_bit(BOB),
            false => outage::payees_below(self.sheet, t),
        }
    }

    /// The model's verdict, of an outage from the next block to the end of this one.
    pub fn kind(&self, outage: &Outage, t: u8, side: u8) -> Kind {
        let verdict = outage::verdict(self.sheet, self.setup, self.position, outage.reach, t);
        let (soonest, mined) = (self.soonest_deadline(t), self.position.mined);
        if verdict == SETTLED {
            Kind::Settled
        } else if self.can_pay(t) & payee_bit(side) == 0 {
            Kind::Others
        } else if verdict == SAFE_IN_POOL {
            match self.taken(t, side) {
                Some(_) => Kind::Taken,
                None => Kind::Sent,
            }
        } else if verdict & COVERED != 0 && outage.reach > 0 && soonest != NEVER {
            Kind::Covered
        } else if (mined + 1..NEVER).contains(&soonest) {
            Kind::Ahead
        } else {
            Kind::Free
        }
    }

    /// Whom a transaction pays that could pay the side and is safe in the pool for another party.
    pub fn taken(&self, t: u8, side: u8) -> Option<u8> {
        let verdict = outage::verdict(self.sheet, self.setup, self.position, 0, t);
        let could = verdict == SAFE_IN_POOL && self.can_pay(t) & payee_bit(side) != 0;
        let sent = self.sent_to(t).filter(|_| could);
        sent.filter(|&payee| payee != CONTRACT && payee != side)
    }

    /// The lock with the parent in its soonest block.
    fn lock(&self, t: u8) -> u32 {
        let transaction = self.sheet.transaction(t);
        let parent = transaction.parent.map_or(0, |p| self.soonest_block(p));
        let product = |days: u8| u32::from(days) * self.setup.blocks_per_day;
        match transaction.lock {
            Lock::None => 0,
            Lock::Absolute { days } => product(days),
            Lock::SinceParent { days } => parent + product(days),
        }
    }

    fn other_rivals(&self, t: u8) -> impl Iterator<Item = u8> + '_ {
        let rivals = self.sheet.rivals(t).iter().copied();
        rivals.filter(move |&rival| rival != t)
    }

    /// The first rival that can be confirmed right after the soonest deadline: by its lock, or by one since the parent,
    /// which moves with the parent's block and can come to it.
    pub fn later_rival(&self, t: u8) -> Option<u8> {
        let soonest = self.soonest_deadline(t);
        let since = |t: u8| matches!(self.sheet.transaction(t).lock, Lock::SinceParent { .. });
        let parent = self.sheet.transaction(t).parent;
        let to_come = parent.is_some_and(|parent| !self.position.is_confirmed(parent));
        let moves = |r: u8| to_come && since(r) && !since(t) && self.lock(t) + 1 == soonest;
        let mut rivals = self.other_rivals(t);
        rivals.find(|&r| match self.lock(r) > self.lock(t) {
            true => self.lock(r) == soonest,
            false => moves(r),
        })
    }

    /// The rivals that are locked no later and are sent, or can be sent by somebody else, with whether they are sent.
    pub fn in_the_way(&self, open: &[[u8; 4]], t: u8, side: u8) -> Vec<(u8, bool)> {
        let sends = |r: u8| {
            let by_another = |s: &&[u8; 4]| [3, 4].contains(&s[0]) && s[1] != side && s[2] == r;
            open.iter().find(by_another).is_some()
        };
        let sent = |r: u8| self.position.in_pool(r) || self.position.in_block(r);
        let rivals = self.other_rivals(t);
        rivals
            .filter(|&r| self.lock(r) <= self.lock(t) && (sent(r) || sends(r)))
            .map(|r| (r, sent(r)))
            .collect()
    }
}
