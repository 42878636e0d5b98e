//! Slip 9: "Since when has it been open?" The counts are read off the list of all
//! positions that a journal goes through.

use super::heights::{self, NEVER};
use super::position::{within, Position};
use super::setup::Setup;
use super::sheet::Sheet;
use super::{step, CONTRACT};

/// "Open means: no rival confirmed, parent confirmed or none, lock reached, and
/// signatures at hand for some party, for destination 2 or, in a paying one, for
/// itself as a payee."
pub fn is_open(sheet: &Sheet, setup: &Setup, position: &Position, t: u8) -> bool {
    let transaction = sheet.transaction(t);
    let mut rivals = sheet.rivals(t).iter();
    let parent_there = match transaction.parent {
        None => true,
        Some(parent) => position.is_confirmed(parent),
    };
    let at_hand = |party: u8, destination: u8| {
        let has = position.signatures(sheet, party, t, destination);
        within(transaction.needs, has)
    };
    let signed_by = |party: u8| match transaction.payees {
        0 => at_hand(party, CONTRACT),
        _ => sheet.is_payee(t, party) && at_hand(party, party),
    };
    parent_there
        && !rivals.any(|&rival| position.is_confirmed(rival))
        && heights::lock_height(sheet, setup, position, t) <= position.mined
        && sheet.parties.iter().copied().any(signed_by)
}

/// "the empty journal's position and .. that after each accepted step".
pub fn positions(sheet: &Sheet, setup: &Setup, accepted: &[[u8; 4]]) -> Vec<Position> {
    let mut along = vec![Position::fresh(sheet)];
    for bytes in accepted {
        let mut position = along[along.len() - 1].clone();
        let step = step::decode(sheet, setup, bytes).expect("an accepted step has right fields");
        step::effect(sheet, setup, &mut position, &step);
        along.push(position);
    }
    along
}

/// "the count of blocks mined when it was first open", "2147483647 where never
/// open": the least count of a position in which it is.
pub fn count(sheet: &Sheet, setup: &Setup, along: &[Position], t: u8) -> u32 {
    let open = along.iter().filter(|p| is_open(sheet, setup, p, t));
    open.map(|p| p.mined).min().unwrap_or(NEVER)
}
