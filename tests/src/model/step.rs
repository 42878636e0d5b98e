//! Steps: decoding with 11, the tests of each kind, and the effects.

use super::conduct;
use super::heights;
use super::position::{within, Confirmation, Position};
use super::setup::{Conduct, Setup};
use super::sheet::Sheet;
use super::slips::Slips;
use super::{ALICE, BOB, CONTRACT, MINER};
use std::collections::BTreeSet;

/// Transaction byte of kind 6, and of the first shares under conduct.
pub const ALL: u8 = 255;
/// "10,000 blocks mined".
pub const MOST_BLOCKS: u32 = 10_000;

/// "A step is one of seven kinds."
#[derive(Clone, Copy, Debug, PartialEq, Eq, PartialOrd, Ord)]
pub enum Kind {
    Share,
    Give,
    SendToPool,
    HandToMiner,
    Include,
    Mine,
    Bump,
}

/// A step whose four fields are in range for its kind.
#[derive(Clone, Copy, Debug, PartialEq, Eq)]
pub struct Step {
    pub kind: Kind,
    pub party: u8,
    /// A transaction, 255, or for kind 2 a signature number.
    pub transaction: u8,
    pub destination: u8,
}

/// A step beside all that its tests look at.
#[derive(Clone, Copy)]
pub struct Case<'a> {
    pub sheet: &'a Sheet,
    pub setup: &'a Setup,
    pub position: &'a Position,
    pub step: Step,
}

impl<'a> Case<'a> {
    /// The same position with another step.
    pub fn with(&self, step: Step) -> Case<'a> {
        Case { step, ..*self }
    }

    pub fn lock_height(&self, t: u8) -> u32 {
        heights::lock_height(self.sheet, self.setup, self.position, t)
    }

    pub fn deadline(&self, t: u8) -> u32 {
        heights::deadline(self.sheet, self.setup, self.position, t)
    }
}

fn kind_of(byte: u8) -> Option<Kind> {
    match byte {
        1 => Some(Kind::Share),
        2 => Some(Kind::Give),
        3 => Some(Kind::SendToPool),
        4 => Some(Kind::HandToMiner),
        5 => Some(Kind::Include),
        6 => Some(Kind::Mine),
        7 => Some(Kind::Bump),
        _ => None,
    }
}

/// The step that four bytes stand for, or 11.
pub fn decode(sheet: &Sheet, setup: &Setup, bytes: &[u8; 4]) -> Result<Step, u32> {
    let kind = kind_of(bytes[0]).ok_or(11u32)?;
    let step = Step {
        kind,
        party: bytes[1],
        transaction: bytes[2],
        destination: bytes[3],
    };
    let in_range = party_in_range(sheet, setup.slips, &step)
        && transaction_in_range(sheet, setup, &step)
        && destination_in_range(sheet, setup.slips, &step);
    match in_range {
        true => Ok(step),
        false => Err(11),
    }
}

/// "Kinds 1 to 4 have party 0 or 1; kinds 5, 6, 7 have party 2." Slip 10: "Carol is
/// party 3" on a sheet of three.
fn party_in_range(sheet: &Sheet, slips: Slips, step: &Step) -> bool {
    match step.kind {
        Kind::Share | Kind::Give | Kind::SendToPool | Kind::HandToMiner => {
            match slips.three_parties {
                true => sheet.is_party(step.party),
                false => step.party == ALICE || step.party == BOB,
            }
        }
        Kind::Include | Kind::Mine | Kind::Bump => step.party == MINER,
    }
}

/// "Outside kind 2 a transaction is below n; 255 is right only for kind 6,
/// always, and for kind 1 under conduct 1 and 2." In kind 2 it is "a signature
/// number (0 to s - 1)".
fn transaction_in_range(sheet: &Sheet, setup: &Setup, step: &Step) -> bool {
    let below_n = step.transaction < sheet.count();
    match step.kind {
        Kind::Share => below_n || step.transaction == ALL && setup.conduct != Conduct::Open,
        Kind::Give => step.transaction < sheet.signatures,
        Kind::Mine => step.transaction == ALL,
        Kind::SendToPool | Kind::HandToMiner | Kind::Include | Kind::Bump => below_n,
    }
}

/// "A step whose destination breaks a rule above, or isn't 2 beside 255, gets
/// 11."
fn destination_in_range(sheet: &Sheet, slips: Slips, step: &Step) -> bool {
    let (t, destination) = (step.transaction, step.destination);
    match step.kind {
        Kind::Share if t == ALL => destination == CONTRACT,
        // "A paying one names one of its payees."
        Kind::Share if !sheet.is_contract(t) => sheet.is_payee(t, destination),
        // "receiver (the destination, the other party)"; Slip 10: "A key may be
        // given to either other party."
        Kind::Give if slips.three_parties => {
            sheet.is_party(destination) && destination != step.party
        }
        Kind::Give => destination == other(step.party),
        // "paying ones only to the sender, who must be a payee".
        Kind::SendToPool | Kind::HandToMiner if !sheet.is_contract(t) => {
            destination == step.party && sheet.is_payee(t, step.party)
        }
        // "Contract transactions go to 2"; "kinds 5, 6, 7 have ... destination 2".
        _ => destination == CONTRACT,
    }
}

/// Document 01: the other of Alice and Bob.
pub fn other(party: u8) -> u8 {
    match party {
        ALICE => BOB,
        _ => ALICE,
    }
}

/// The number of a test and whether a step fails it.
type Test = (u32, fn(&Case) -> bool);

/// The tests of each kind after 11: "Checks go by rising number", but for sends.
fn tests(kind: Kind, slips: Slips) -> &'static [Test] {
    match kind {
        Kind::Share => &[(13, conduct::breaks), (13, share_unmet)],
        Kind::Give => &[(13, conduct::breaks), (13, give_unmet)],
        Kind::SendToPool | Kind::HandToMiner => send_tests(kind, slips),
        Kind::Include => &[
            (14, rival_in_block_or_confirmed),
            (15, parent_not_in_block_or_confirmed),
            (19, not_in_pool),
            (20, some_bump_owed),
        ],
        Kind::Mine => &[
            (20, bump_owed_before_mining),
            (22, empty_too_soon),
            (23, blocks_used_up),
        ],
        Kind::Bump => &[(21, bump_not_owed)],
    }
}

/// The tests of kinds 3 and 4. Slip 3: "A step can fail for missing signatures and
/// for an unreached lock together ... The lock is now tested first."
fn send_tests(kind: Kind, slips: Slips) -> &'static [Test] {
    match (kind, slips.lock_before_signature) {
        (Kind::SendToPool, true) => &[
            (13, conduct::breaks),
            (14, rival_in_pool_or_confirmed),
            (15, parent_not_in_pool_or_confirmed),
            (17, lock_not_reached),
            (16, signatures_missing),
            (18, deadline_reached),
        ],
        (_, true) => &[
            (12, stealth_missing),
            (13, conduct::breaks),
            (14, rival_in_block_or_confirmed),
            (15, parent_not_in_block_or_confirmed),
            (17, lock_not_reached),
            (16, signatures_missing),
        ],
        (_, false) => older_send_tests(kind),
    }
}

/// Document 01's order of them, by rising number.
fn older_send_tests(kind: Kind) -> &'static [Test] {
    match kind {
        Kind::SendToPool => &[
            (13, conduct::breaks),
            (14, rival_in_pool_or_confirmed),
            (15, parent_not_in_pool_or_confirmed),
            (16, signatures_missing),
            (17, lock_not_reached),
            (18, deadline_reached),
        ],
        _ => &[
            (12, stealth_missing),
            (13, conduct::breaks),
            (14, rival_in_block_or_confirmed),
            (15, parent_not_in_block_or_confirmed),
            (16, signatures_missing),
            (17, lock_not_reached),
        ],
    }
}

/// 12: "kind 4, stealth 0".
fn stealth_missing(case: &Case) -> bool {
    !case.setup.stealth
}

/// 13 for kind 1.
fn share_unmet(case: &Case) -> bool {
    let Step {
        party,
        transaction,
        destination,
        ..
    } = case.step;
    match transaction {
        ALL => conduct::first_shares(party)
            .iter()
            .any(|&t| one_share_unmet(case, t, CONTRACT)),
        t => one_share_unmet(case, t, destination),
    }
}

/// "Refused if this party has shared this before for this destination, or the
/// set is empty."
fn one_share_unmet(case: &Case, t: u8, destination: u8) -> bool {
    let party = case.step.party;
    let before = case.position.shares.contains(&(party, t, destination));
    before || share_set(case.sheet, case.position, party, t) == 0
}

/// "the party's held, required, non-secret signatures on that transaction".
fn share_set(sheet: &Sheet, position: &Position, party: u8, t: u8) -> u8 {
    position.held[usize::from(party)] & sheet.transaction(t).needs & !sheet.secrets
}

/// 13 for kind 2: "giver holds it, receiver ... doesn't".
fn give_unmet(case: &Case) -> bool {
    let step = case.step;
    let giver_holds = case.position.holds(step.party, step.transaction);
    let receiver_holds = case.position.holds(step.destination, step.transaction);
    !giver_holds || receiver_holds
}

fn some_rival(case: &Case, stands: impl Fn(u8) -> bool) -> bool {
    let rivals = case.sheet.rivals(case.step.transaction);
    rivals.iter().any(|&rival| stands(rival))
}

/// 14 for kind 3: "no rival in pool or confirmed".
fn rival_in_pool_or_confirmed(case: &Case) -> bool {
    let position = case.position;
    some_rival(case, |r| position.in_pool(r) || position.is_confirmed(r))
}

/// 14 for kinds 4 and 5: "no rival confirmed or in the block".
fn rival_in_block_or_confirmed(case: &Case) -> bool {
    let position = case.position;
    some_rival(case, |r| position.in_block(r) || position.is_confirmed(r))
}

/// An opening has no parent to miss.
fn parent_missing(case: &Case, stands: impl Fn(u8) -> bool) -> bool {
    let parent = case.sheet.transaction(case.step.transaction).parent;
    parent.is_some_and(|p| !stands(p))
}

/// 15 for kind 3: "parent there", in pool or confirmed.
fn parent_not_in_pool_or_confirmed(case: &Case) -> bool {
    let position = case.position;
    parent_missing(case, |p| position.in_pool(p) || position.is_confirmed(p))
}

/// 15 for kinds 4 and 5: "parent confirmed or in the block".
fn parent_not_in_block_or_confirmed(case: &Case) -> bool {
    let position = case.position;
    parent_missing(case, |p| position.in_block(p) || position.is_confirmed(p))
}

/// 16: each required signature is among those the sender has.
fn signatures_missing(case: &Case) -> bool {
    let step = case.step;
    let needs = case.sheet.transaction(step.transaction).needs;
    let has = case
        .position
        .signatures(case.sheet, step.party, step.transaction, step.destination);
    !within(needs, has)
}

/// 17: "lock height ≤ blocks mined".
fn lock_not_reached(case: &Case) -> bool {
    let early = u32::from(case.setup.faults.lock_a_block_early);
    case.lock_height(case.step.transaction) > case.position.mined + early
}

/// 18: "blocks mined < deadline".
fn deadline_reached(case: &Case) -> bool {
    case.position.mined >= case.deadline(case.step.transaction)
}

/// 19: "kind 5, not in pool".
fn not_in_pool(case: &Case) -> bool {
    !case.position.in_pool(case.step.transaction)
}

/// "owed when a pool entry is outside the block and blocks mined + 1 is its
/// deadline".
fn bump_owed(case: &Case, t: u8) -> bool {
    let position = case.position;
    position.in_pool(t) && !position.in_block(t) && position.mined + 1 == case.deadline(t)
}

/// 20: "kind 5 or 6, a bump owed".
fn some_bump_owed(case: &Case) -> bool {
    case.position.pool.keys().any(|&t| bump_owed(case, t))
}

/// 20 for kind 6.
fn bump_owed_before_mining(case: &Case) -> bool {
    !case.setup.faults.mines_though_owed && some_bump_owed(case)
}

/// 21: "kind 7, not owed". "Where several are owed, here, any of them may be
/// named."
fn bump_not_owed(case: &Case) -> bool {
    !bump_owed(case, case.step.transaction)
}

/// 22: "An empty block needs transaction 0 confirmed."
fn empty_too_soon(case: &Case) -> bool {
    case.position.block.is_empty() && !case.position.is_confirmed(0)
}

/// 23: "10,000 blocks mined".
fn blocks_used_up(case: &Case) -> bool {
    case.position.mined >= MOST_BLOCKS
}

/// The number of the first test after 11 that a step fails, 0 if none.
pub fn first_failed(case: &Case) -> u32 {
    tests(case.step.kind, case.setup.slips)
        .iter()
        .find(|(_, fails)| fails(case))
        .map_or(0, |(number, _)| *number)
}

/// The refusal of four bytes as the next step, 0 if they are accepted.
pub fn refusal(sheet: &Sheet, setup: &Setup, position: &Position, bytes: &[u8; 4]) -> u32 {
    match decode(sheet, setup, bytes) {
        Err(number) => number,
        Ok(step) => first_failed(&Case {
            sheet,
            setup,
            position,
            step,
        }),
    }
}

/// The effect of an accepted step.
pub fn effect(sheet: &Sheet, setup: &Setup, position: &mut Position, step: &Step) {
    let (t, destination) = (step.transaction, step.destination);
    match step.kind {
        Kind::Share if t == ALL => {
            for &first in conduct::first_shares(step.party) {
                share(sheet, position, step.party, first, CONTRACT);
            }
        }
        Kind::Share => share(sheet, position, step.party, t, destination),
        Kind::Give => position.held[usize::from(destination)] |= 1 << t,
        Kind::SendToPool => {
            position.pool.insert(t, destination);
            expose(sheet, position, t, destination);
        }
        Kind::HandToMiner => hand_in(sheet, setup, position, t, destination),
        Kind::Include => {
            let entry = position.pool[&t];
            position.block.insert(t, entry);
        }
        Kind::Mine => mine(sheet, setup, position),
        Kind::Bump => bump(sheet, setup, position, t),
    }
}

/// "the party's held, required, non-secret signatures on that transaction become
/// shared".
fn share(sheet: &Sheet, position: &mut Position, party: u8, t: u8, destination: u8) {
    let signatures = share_set(sheet, position, party, t);
    position.add_shared(t, destination, signatures);
    position.shares.insert((party, t, destination));
}

/// "Its required signatures become shared, none if veiled."
fn expose(sheet: &Sheet, position: &mut Position, t: u8, destination: u8) {
    let transaction = sheet.transaction(t);
    if !transaction.veil {
        position.add_shared(t, destination, transaction.needs);
    }
}

/// "Hand to miner: .. nothing shared."
fn hand_in(sheet: &Sheet, setup: &Setup, position: &mut Position, t: u8, destination: u8) {
    position.block.insert(t, destination);
    if setup.faults.hand_in_shares {
        expose(sheet, position, t, destination);
    }
}

/// The rivals of all these transactions.
fn rivals_of(sheet: &Sheet, transactions: &BTreeSet<u8>) -> BTreeSet<u8> {
    let rivals = transactions.iter().flat_map(|&t| sheet.rivals(t));
    rivals.copied().collect()
}

/// Whether the line of a transaction meets the set.
fn line_meets(sheet: &Sheet, t: u8, set: &BTreeSet<u8>) -> bool {
    !sheet.line(t).is_disjoint(set)
}

/// "Mine (transaction 255): the block is confirmed and its entries shared as in
/// 3"; some entries leave the pool.
fn mine(sheet: &Sheet, setup: &Setup, position: &mut Position) {
    let entries = std::mem::take(&mut position.block);
    position.mined += 1;
    for (&t, &destination) in &entries {
        let block = position.mined;
        let confirmation = Confirmation { destination, block };
        position.confirmed.insert(t, confirmation);
        expose(sheet, position, t, destination);
    }
    let mined = entries.into_keys().collect();
    let leaves = match setup.slips.waiting_children_stay {
        true => leaves_pool,
        false => left_pool_in_document_01,
    };
    position.pool.retain(|&t, _| !leaves(sheet, &mined, t));
}

/// Slip 1: "a mined transaction leaves the pool itself. Others leave exactly if
/// their line meets a different rival of a mined one."
fn leaves_pool(sheet: &Sheet, mined: &BTreeSet<u8>, t: u8) -> bool {
    let different_rival = |member: u8| {
        let mut rivals = sheet.rivals(member).iter();
        rivals.any(|rival| *rival != member && mined.contains(rival))
    };
    mined.contains(&t) || sheet.line(t).iter().any(|&member| different_rival(member))
}

/// Document 01: "every pool entry whose line meets a rival of a mined one leaves".
fn left_pool_in_document_01(sheet: &Sheet, mined: &BTreeSet<u8>, t: u8) -> bool {
    line_meets(sheet, t, &rivals_of(sheet, mined))
}

/// "It and, here, all its waiting ancestors outside the block enter; block
/// entries whose line meets a rival of these leave first."
fn bump(sheet: &Sheet, setup: &Setup, position: &mut Position, t: u8) {
    let line = sheet.line(t).iter().copied();
    let entering: BTreeSet<u8> = line
        .filter(|&member| position.in_pool(member) && !position.in_block(member))
        .filter(|&member| member == t || !setup.faults.bump_alone)
        .collect();
    let leaving = rivals_of(sheet, &entering);
    let leaves = |entry: u8| !setup.faults.bump_beside_rivals && line_meets(sheet, entry, &leaving);
    position.block.retain(|&entry, _| !leaves(entry));
    for member in entering {
        let destination = position.pool[&member];
        position.block.insert(member, destination);
    }
}
