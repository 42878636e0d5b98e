//! Demand 3 of a course of steps: the plain ledger agrees with the holders, and
//! under careful conduct a secret is kept and nobody is paid from two coins.

use super::conduct::{SECRET_ALICE, SECRET_BOB};
use super::journal::Course;
use super::position::Position;
use super::setup::Setup;
use super::sheet::Sheet;
use super::{ledger, report, ALICE, BOB};
use std::collections::BTreeSet;

/// Whether the ledger accepts the entries of the mined blocks, with the holders
/// that the position and the bytes of its report have.
pub fn ledger_agrees(sheet: &Sheet, setup: &Setup, course: &Course, report: &[u8]) -> bool {
    let by_ledger = ledger::holders(sheet, setup.blocks_per_day, &course.entries);
    let from_position = report::holders_from_position(sheet, &course.position);
    let from_report = report::holders_from_report(sheet, report);
    from_position == from_report && by_ledger == Some(from_position)
}

/// The secrets of the SASwap sheet that are known beyond their owners: shared,
/// or held by the other party.
pub fn secrets_out(sheet: &Sheet, position: &Position) -> u8 {
    let mut secrets = position.shared_secrets(sheet);
    if position.holds(ALICE, SECRET_BOB) {
        secrets |= 1 << SECRET_BOB;
    }
    if position.holds(BOB, SECRET_ALICE) {
        secrets |= 1 << SECRET_ALICE;
    }
    secrets
}

/// Whether both secrets are known beyond their owners.
pub fn both_secrets_out(sheet: &Sheet, position: &Position) -> bool {
    secrets_out(sheet, position).count_ones() == 2
}

/// Whether one party is paid from two coins.
pub fn paid_twice(sheet: &Sheet, position: &Position) -> bool {
    let payouts = report::payouts(&report::holders_from_position(sheet, position));
    let paid: BTreeSet<u8> = payouts.values().copied().collect();
    paid.len() < payouts.len()
}
