//! Open steps: every four bytes that would be accepted next, found by trying.

use super::position::Position;
use super::setup::Setup;
use super::sheet::Sheet;
use super::step;
use super::{ALICE, BOB, MINER};

/// Those who can make a step, in the order of the list: "Alice's steps first, then
/// Bob's ..., then the miner's"; Slip 10: "Carol stands after Bob and before the
/// miner".
pub fn actors(sheet: &Sheet) -> Vec<u8> {
    [sheet.parties, &[MINER]].concat()
}

/// The open steps: those of each actor, "each by kind, transaction, destination".
pub fn steps(sheet: &Sheet, setup: &Setup, position: &Position) -> Vec<[u8; 4]> {
    let actors = match setup.slips.three_parties {
        true => actors(sheet),
        false => vec![ALICE, BOB, MINER],
    };
    let mut found = Vec::new();
    for party in actors {
        found.extend(steps_of(sheet, setup, position, party));
    }
    found
}

/// The open steps of one party.
fn steps_of(sheet: &Sheet, setup: &Setup, position: &Position, party: u8) -> Vec<[u8; 4]> {
    candidates(sheet, party)
        .filter(|bytes| step::refusal(sheet, setup, position, bytes) == 0)
        .collect()
}

/// Every four bytes of one party that some kind could have, "by kind,
/// transaction, destination". A transaction byte is a transaction, a signature
/// number, or 255; a destination is 2 or a party, so 2 or 3 at most.
pub fn candidates(sheet: &Sheet, party: u8) -> impl Iterator<Item = [u8; 4]> {
    let most = sheet.count().max(sheet.signatures);
    let last = sheet.parties.len() as u8;
    let transactions = move || (0..most).chain([step::ALL]);
    let pairs = move || transactions().flat_map(move |t| (0..=last).map(move |d| (t, d)));
    (1..=7).flat_map(move |kind| pairs().map(move |(t, d)| [kind, party, t, d]))
}

/// Every four bytes that some kind could have, by any actor.
pub fn all_candidates(sheet: &Sheet) -> impl Iterator<Item = [u8; 4]> + '_ {
    let actors = actors(sheet).into_iter();
    actors.flat_map(|party| candidates(sheet, party))
}
