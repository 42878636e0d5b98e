//! For how many blocks a party can take no step and still keep a way to a payout: whether one lasts over an outage of the
//! next k blocks. The words in quotes are those of the definition; X is the party, m the blocks mined, b = m + k.

use crate::attainable::Others;
use crate::model::heights::NEVER;
use crate::model::outage;
use crate::model::position::{within, Position};
use crate::model::setup::Setup;
use crate::model::sheet::{Lock, Sheet};
use crate::model::CONTRACT;
use std::cell::RefCell;
use std::cmp::max;
use std::collections::{BTreeMap, BTreeSet};

pub mod row;
pub mod search;
pub mod settled;

type Set = BTreeSet<u8>;

/// A set asked for with its answer, so that each is found once.
type Found = RefCell<BTreeMap<Set, Set>>;

/// What X can count on: in the position as it stands, and in the settled one.
pub struct Outlook<'a> {
    pub stands: View<'a>,
    pub settled: View<'a>,
}

/// What X can count on in one position.
pub struct View<'a> {
    sheet: &'a Sheet,
    setup: &'a Setup,
    party: u8,
    position: Position,
    can: Found,
    elsewhere: Found,
    good: RefCell<BTreeMap<(u8, u32), bool>>,
}

/// What is asked of a transaction's rivals: what X knows, what X sends beside, the height up to which it is off.
#[derive(Clone)]
struct Ask {
    know: u8,
    also: Set,
    off: u32,
}

/// The rivals that can come first, and up to which height X waits then; none where it fails.
struct Beat {
    rivals: Set,
    last: u32,
}

/// The unconfirmed strict ancestors.
fn above(sheet: &Sheet, position: &Position, u: u8) -> Set {
    let line = sheet.line(u).iter().copied();
    line.filter(|&t| t != u && !position.is_confirmed(t))
        .collect()
}

impl<'a> Outlook<'a> {
    pub fn of(sheet: &'a Sheet, setup: &'a Setup, position: &Position, party: u8) -> Outlook<'a> {
        let settled = settled::settled(sheet, setup, position, party);
        Outlook {
            stands: View::of(sheet, setup, position.clone(), party),
            settled: View::of(sheet, setup, settled, party),
        }
    }

    /// "lasts(k): kept(k) as the position stands, or in the settled position, where b = m + max(k, 1)."
    pub fn lasts(&self, blocks: u32) -> bool {
        self.stands.kept(blocks) || self.settled.kept(max(blocks, 1))
    }
}

impl<'a> View<'a> {
    pub fn of(sheet: &'a Sheet, setup: &'a Setup, position: Position, party: u8) -> View<'a> {
        View {
            sheet,
            setup,
            party,
            position,
            can: RefCell::default(),
            elsewhere: RefCell::default(),
            good: RefCell::default(),
        }
    }

    fn others(&self) -> Others<'_> {
        Others::of(self.sheet, self.setup, &self.position, self.party)
    }

    fn can(&self, also: &Set) -> Set {
        let mut found = self.can.borrow_mut();
        found
            .entry(also.clone())
            .or_insert_with(|| self.others().can(also))
            .clone()
    }

    /// "can'(U): those for which this holds with a destination other than X."
    fn elsewhere(&self, also: &Set) -> Set {
        let mut found = self.elsewhere.borrow_mut();
        found
            .entry(also.clone())
            .or_insert_with(|| self.others().elsewhere(also))
            .clone()
    }

    fn above(&self, u: u8) -> Set {
        above(self.sheet, &self.position, u)
    }

    fn pays(&self, u: u8) -> bool {
        !self.sheet.is_contract(u)
    }

    fn secrets(&self, members: &Set) -> u8 {
        let others = self.others();
        members.iter().fold(0, |mask, &t| mask | others.secrets(t))
    }

    fn since_parent(&self, t: u8) -> bool {
        matches!(self.sheet.transaction(t).lock, Lock::SinceParent { .. })
    }

    /// "fixed: q confirmed or none", q the parent.
    fn fixed(&self, u: u8) -> bool {
        let parent = self.sheet.transaction(u).parent;
        parent.is_none_or(|q| self.position.is_confirmed(q))
    }

    /// "own and his the lock heights of u and of a rival r with the parent in e", "q's block or its soonest block".
    fn lock(&self, t: u8) -> u32 {
        let product = |days: u8| u32::from(days) * self.setup.blocks_per_day;
        match self.sheet.transaction(t).lock {
            Lock::None => 0,
            Lock::Absolute { days } => product(days),
            Lock::SinceParent { days } => {
                let parent = self.sheet.transaction(t).parent.expect("since the parent");
                outage::soonest_block(self.sheet, self.setup, &self.position, parent)
                    + product(days)
            }
        }
    }

    /// "dest(u) = X if u pays, else 2."
    fn destination(&self, u: u8) -> u8 {
        match self.pays(u) {
            true => self.party,
            false => CONTRACT,
        }
    }

    /// "late: fixed: own < his ≤ off; not fixed and r since the parent: runs and (u since the parent: own < his ≤ off; u not:
    /// max(his, own + 1) ≤ off); not fixed and r not: own < his and (u not since the parent, or runs and his ≤ off)".
    fn late(&self, u: u8, r: u8, runs: bool, off: u32) -> bool {
        let (own, his) = (self.lock(u), self.lock(r));
        let within_off = own < his && his <= off;
        match (self.fixed(u), self.since_parent(r), self.since_parent(u)) {
            (true, _, _) => within_off,
            (false, true, true) => runs && within_off,
            (false, true, false) => runs && max(his, own + 1) <= off,
            (false, false, false) => own < his,
            (false, false, true) => runs && within_off,
        }
    }

    /// "beat(u; know, U, off)"; none where it fails.
    fn beat(&self, u: u8, ask: &Ask) -> Option<Beat> {
        let (sheet, position) = (self.sheet, &self.position);
        let destination = self.destination(u);
        let parent = sheet.transaction(u).parent;
        let fixed = self.fixed(u);
        let runs = !fixed && parent.is_some_and(|q| self.can(&Set::new()).contains(&q));
        let pool = position.pool.get(&u) == Some(&destination);
        let shared = position.shared.get(&(u, destination)).copied().unwrap_or(0);
        let signs = within(sheet.transaction(u).needs, ask.know | shared);
        let pays_others = self.pays(u) && !sheet.is_payee(u, self.party);
        if self.others().gone(u) || pays_others || !(signs || pool) {
            return None;
        }
        let own = self.lock(u);
        let last = match fixed && signs {
            true => max(ask.off, own) + u32::from(self.setup.stealth),
            false => NEVER,
        };
        let rivals = || sheet.rivals(u).iter().copied();
        if !self.setup.stealth {
            if pool {
                return Some(Beat {
                    rivals: Set::new(),
                    last,
                });
            }
            if rivals().any(|r| self.late(u, r, runs, ask.off)) {
                return None;
            }
        }
        let sends = &ask.also | &self.above(u);
        let (can, elsewhere) = (self.can(&sends), self.elsewhere(&sends));
        let first = |&r: &u8| {
            let his = self.lock(r);
            let stands = [position.pool.get(&r), position.block.get(&r)];
            let waits = stands
                .into_iter()
                .flatten()
                .any(|&d| r != u || d != self.party);
            let sooner = match (pool, fixed) {
                (true, _) => his <= own,
                (false, true) => his <= max(ask.off, own),
                (false, false) => !self.since_parent(r) || his <= own || runs && his <= ask.off,
            };
            let comes = match r == u {
                true => self.pays(u) && elsewhere.contains(&u),
                false => can.contains(&r),
            };
            comes && (waits || sooner)
        };
        let rivals = rivals().filter(first).collect();
        Some(Beat { rivals, last })
    }

    /// "A line of another coin: t pays X; each unconfirmed u of its line has beat(u; know, U, off) empty and not failing."
    fn line(&self, t: u8, ask: &Ask) -> bool {
        let line = self.sheet.line(t).iter().copied();
        let mut unconfirmed = line.filter(|&u| !self.position.is_confirmed(u));
        let free = |u: u8| self.beat(u, ask).is_some_and(|beat| beat.rivals.is_empty());
        self.sheet.is_payee(t, self.party)
            && !self.position.is_confirmed(t)
            && unconfirmed.all(free)
    }

    /// "What X can count on", each found once for a height.
    fn good(&self, u: u8, off: u32) -> bool {
        let found = self.good.borrow().get(&(u, off)).copied();
        found.unwrap_or_else(|| {
            let good = self.find_good(u, off);
            self.good.borrow_mut().insert((u, off), good);
            good
        })
    }

    /// "good(u): u pays or has a good child; beat(u; know, {}, b) does not fail, know being X's keys,
    /// the shared secrets and the secrets of above(u); and each r in it is answered".
    fn find_good(&self, u: u8, off: u32) -> bool {
        let child = |t: u8| self.sheet.children(t).iter().any(|&c| self.good(c, off));
        if !self.pays(u) && !child(u) {
            return false;
        }
        let ask = self.ask(u, off);
        let Some(beat) = self.beat(u, &ask) else {
            return false;
        };
        let above = self.above(u);
        beat.rivals.iter().all(|&r| {
            let for_us = r != u && self.pays(r) && !self.elsewhere(&above).contains(&r);
            let ask = Ask {
                know: ask.know | self.secrets(&Set::from([r])),
                also: above.clone(),
                off: beat.last,
            };
            let coin = self.sheet.coin(u);
            let mut others = (0..self.sheet.count()).filter(|&t| self.sheet.coin(t) != coin);
            for_us || r != u && child(r) || others.any(|t| self.line(t, &ask))
        })
    }

    /// What is asked of the rivals of what X counts on: "know being X's keys, the shared secrets and the secrets of above(u)".
    fn ask(&self, u: u8, off: u32) -> Ask {
        let keys = self.position.held[usize::from(self.party)];
        let shared = self.position.shared_secrets(self.sheet);
        Ask {
            know: keys | shared | self.secrets(&self.above(u)),
            also: Set::new(),
            off,
        }
    }

    /// Whether beat(u; know, {}, b) is empty.
    fn is_unbeaten(&self, u: u8, off: u32) -> bool {
        let beat = self.beat(u, &self.ask(u, off));
        beat.is_some_and(|beat| beat.rivals.is_empty())
    }

    /// "a confirmed transaction pays X".
    fn is_paid(&self) -> bool {
        let mut confirmed = self.position.confirmed.values();
        confirmed.any(|c| c.destination == self.party)
    }

    /// "an opening u or one whose parent is confirmed".
    fn reached(&self) -> impl Iterator<Item = u8> + '_ {
        (0..self.sheet.count()).filter(|&u| self.fixed(u))
    }

    /// "kept(k): a confirmed transaction pays X, or good(u) for an opening u or one whose parent is confirmed."
    pub fn kept(&self, blocks: u32) -> bool {
        let off = self.position.mined + blocks;
        self.is_paid() || self.reached().any(|u| self.good(u, off))
    }
}
