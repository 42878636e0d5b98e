//! What document 001's model checks, in its words, of one position; and a fair
//! ending. Each is told by its name where it is false.

use super::conduct::{self, LOCK_A, LOCK_B, SECRET_ALICE, SECRET_BOB, SIG_ALICE, SPEND_B, SUCCESS};
use super::heights;
use super::position::{contains, within, Position};
use super::setup::Setup;
use super::sheet::Sheet;
use super::{report, step, ALICE, BOB, CONTRACT};
use std::collections::BTreeSet;

/// The transactions of the SASwap sheet that pay, beside spend_B.
pub const SPEND_A: u8 = 7;
pub const SPEND_SUCCESS: u8 = 9;
pub const SPEND_REFUND_1_BOB: u8 = 10;
pub const SPEND_REFUND_1_ALICE: u8 = 11;
pub const SPEND_REVOKE: u8 = 12;
pub const SPEND_REFUND_2: u8 = 13;
pub const SPEND_TIMEOUT: u8 = 14;
const SIG_BOB: u8 = 1;

/// InPhase_0 to InPhase_3. Phase_1_cond looks for the first shares in shared
/// knowledge: "∃ tx ∈ shared_knowledge : tx.id = id ∧ sigAlice ∈ tx.ss".
fn phases(position: &Position) -> [bool; 4] {
    let shared = |signature: u8| {
        move |&t: &u8| {
            let mask = position.shared.get(&(t, CONTRACT)).copied().unwrap_or(0);
            contains(mask, signature)
        }
    };
    let alices = conduct::first_shares(ALICE).iter().all(shared(SIG_ALICE));
    let bobs = conduct::first_shares(BOB).iter().all(shared(SIG_BOB));
    let one = alices && bobs;
    let two = position.is_confirmed(LOCK_A);
    let three = position.is_confirmed(LOCK_B);
    [
        !one && !two && !three,
        one && !two && !three,
        two && !three,
        three,
    ]
}

/// ConflictingSet: all that have the same parent, or itself.
fn conflicting(sheet: &Sheet, t: u8) -> BTreeSet<u8> {
    match sheet.transaction(t).parent {
        None => BTreeSet::from([t]),
        Some(parent) => sheet.children(parent).clone(),
    }
}

/// AllDependants, with the transaction itself.
fn with_dependants(sheet: &Sheet, t: u8) -> BTreeSet<u8> {
    let below = sheet.children(t).iter();
    let mut all: BTreeSet<u8> = below
        .flat_map(|&child| with_dependants(sheet, child))
        .collect();
    all.insert(t);
    all
}

/// RemainingTransactions: neither confirmed nor invalidated, which are those
/// "conflicting" with a confirmed one, but itself, and their dependants.
pub fn remaining(sheet: &Sheet, position: &Position) -> BTreeSet<u8> {
    let mut left: BTreeSet<u8> = (0..sheet.count()).collect();
    for &t in position.confirmed.keys() {
        left.remove(&t);
        for rival in conflicting(sheet, t)
            .into_iter()
            .filter(|&rival| rival != t)
        {
            let gone = with_dependants(sheet, rival);
            left.retain(|t| !gone.contains(t));
        }
    }
    left
}

/// HasCustody.
fn has_custody(position: &Position, ids: &[u8], party: u8) -> bool {
    let mut confirmed = ids.iter().filter_map(|t| position.confirmed.get(t));
    confirmed.any(|confirmation| confirmation.destination == party)
}

/// SwapSuccessful.
pub fn successful(position: &Position) -> bool {
    let a = [SPEND_A, SPEND_SUCCESS, SPEND_TIMEOUT, SPEND_REVOKE];
    has_custody(position, &[SPEND_B], ALICE) && has_custody(position, &a, BOB)
}

/// SwapAborted.
pub fn aborted(position: &Position) -> bool {
    let a = [SPEND_A, SPEND_REFUND_1_ALICE, SPEND_REFUND_2];
    has_custody(position, &a, ALICE) && has_custody(position, &[SPEND_B], BOB)
}

/// Whether a signature is in shared knowledge.
fn is_shared(position: &Position, signature: u8) -> bool {
    position
        .shared
        .values()
        .any(|&mask| contains(mask, signature))
}

/// SwapTimedOut: "Alice can't claim tx_spend_B on timeout".
pub fn timed_out(position: &Position) -> bool {
    position.is_confirmed(SPEND_TIMEOUT)
        && !position.holds(ALICE, SECRET_BOB)
        && !is_shared(position, SECRET_BOB)
}

/// The names of those that are false.
fn false_ones(claims: &[(&'static str, bool)]) -> Vec<&'static str> {
    let broken = claims.iter().filter(|(_, holds)| !holds);
    broken.map(|&(name, _)| name).collect()
}

/// The rivals of these are no others of them.
fn conflict_free(sheet: &Sheet, ids: &BTreeSet<u8>) -> bool {
    let alone = |&t: &u8| conflicting(sheet, t).intersection(ids).eq([&t]);
    ids.iter().all(alone)
}

/// What holds on any sheet under any conduct: the names of those that are false.
pub fn false_on_any_sheet(sheet: &Sheet, setup: &Setup, position: &Position) -> Vec<&'static str> {
    let chain = || position.confirmed.keys().copied();
    let pool = || position.pool.keys().copied();
    let block = || position.block.keys().copied();
    let reached = |t: u8| heights::lock_height(sheet, setup, position, t) <= position.mined;
    let once = !pool().chain(block()).any(|t| position.is_confirmed(t));
    false_ones(&[
        (
            "NoConflictingTransactions",
            once && conflict_free(sheet, &chain().chain(block()).collect())
                && conflict_free(sheet, &chain().chain(pool()).collect()),
        ),
        (
            "TransactionTimelocksEnforced",
            pool().chain(block()).all(reached),
        ),
    ])
}

/// What holds on the SASwap sheet under careful conduct, likewise.
pub fn false_under_care(sheet: &Sheet, position: &Position) -> Vec<&'static str> {
    let left = remaining(sheet, position);
    let (successful, aborted) = (successful(position), aborted(position));
    let timed_out = timed_out(position);
    let finished = successful || aborted || timed_out;
    let phases = phases(position);
    let in_phase = phases[usize::from(conduct::phase(position))];
    let stands = |t: u8| position.in_pool(t) || position.in_block(t) || position.is_confirmed(t);
    let waiting = || position.pool.keys().chain(position.block.keys());
    false_ones(&[
        (
            "ConsistentPhase",
            phases.iter().filter(|&&holds| holds).count() == 1 && in_phase,
        ),
        ("NoUnexpectedTransactions", !stands(SPEND_REFUND_1_BOB)),
        (
            "ExpectedStateOnTimeout",
            !timed_out || left.is_subset(&BTreeSet::from([LOCK_B, SPEND_B])),
        ),
        (
            "NoTransactionsRemaining_iff_NotTimedOut",
            left.is_empty() == (finished && !timed_out)
                && left.is_empty() == (successful || aborted),
        ),
        (
            "ExpectedStateOnFinish",
            match (finished, timed_out) {
                (false, _) => true,
                (true, true) => left.contains(&SPEND_B) && waiting().all(|&t| t == LOCK_B),
                (true, false) => left.is_empty() && waiting().count() == 0,
            },
        ),
    ])
}

/// A fair ending, under careful conduct, likewise.
pub fn unfair(sheet: &Sheet, setup: &Setup, position: &Position) -> Vec<&'static str> {
    let holders = report::holders_from_position(sheet, position);
    let payouts = report::payouts(&holders);
    let paid = |party: u8| payouts.get(&LOCK_A) == Some(&party);
    let signs = |party: u8| {
        let needs = sheet.transaction(SPEND_B).needs;
        within(needs, position.signatures(sheet, party, SPEND_B, party))
    };
    let takes = |party: u8| {
        let pool = position.pool.get(&SPEND_B).copied();
        let block = position.block.get(&SPEND_B).copied();
        let chain = position.confirmed.get(&SPEND_B).map(|c| c.destination);
        let own = [pool, block, chain]
            .into_iter()
            .flatten()
            .all(|to| to == party);
        let sent = pool.is_some() || chain.is_some();
        own && (sent || step::refusal(sheet, setup, position, &[3, party, SPEND_B, party]) == 0)
    };
    let locked = position.is_confirmed(LOCK_B);
    let knows = position.holds(ALICE, SECRET_BOB) || is_shared(position, SECRET_BOB);
    let shared_success = position.shared.contains_key(&(SUCCESS, CONTRACT));
    let each_one = payouts.get(&LOCK_A) != payouts.get(&LOCK_B);
    false_ones(&[
        (
            "success is shared in phase 3 alone",
            !shared_success || conduct::phase(position) == 3,
        ),
        (
            "both coins paid out: successful or aborted, one coin each",
            payouts.len() < 2 || (successful(position) || aborted(position)) && each_one,
        ),
        (
            "coin A paid to Alice: Bob can take coin B if it is locked",
            !paid(ALICE)
                || is_shared(position, SECRET_ALICE) && signs(BOB) && (!locked || takes(BOB)),
        ),
        (
            "coin A paid to Bob: Alice can take coin B, or the swap has timed out",
            !paid(BOB) || timed_out(position) || knows && signs(ALICE) && locked && takes(ALICE),
        ),
    ])
}
