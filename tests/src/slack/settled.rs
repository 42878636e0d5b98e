//! The position as X can count on it before the next block: what nothing can throw out of the block being filled counts as
//! confirmed.

use super::Set;
use crate::attainable::Others;
use crate::model::heights;
use crate::model::position::{Confirmation, Position};
use crate::model::setup::Setup;
use crate::model::sheet::Sheet;

/// "its line has another rival of a member of g's": a bump of y would throw g out.
fn throws_out(sheet: &Sheet, y: u8, g: u8) -> bool {
    let line = sheet.line(y);
    sheet.line(g).iter().any(|&h| {
        let mut others = sheet.rivals(h).iter().filter(|&&r| r != h);
        others.any(|r| line.contains(r))
    })
}

/// The entries of the block "that nothing can throw out": "a y throws g out where y can come, its deadline is m + 1, and its line has
/// another rival of a member of g's".
pub fn settles(sheet: &Sheet, setup: &Setup, position: &Position, party: u8) -> Set {
    let can = Others::of(sheet, setup, position, party).can(&Set::new());
    let due = |t: u8| heights::deadline(sheet, setup, position, t) == position.mined + 1;
    let stays = |g: &u8| !can.iter().any(|&y| due(y) && throws_out(sheet, y, *g));
    position.block.keys().copied().filter(stays).collect()
}

/// The settled position: such an entry "counts as confirmed in block m + 1, its secrets as shared; the blocks mined stay, and so does
/// the pool."
pub fn settled(sheet: &Sheet, setup: &Setup, position: &Position, party: u8) -> Position {
    let mut after = position.clone();
    for t in settles(sheet, setup, position, party) {
        let destination = after.block.remove(&t).expect("an entry of the block");
        let block = position.mined + 1;
        after
            .confirmed
            .insert(t, Confirmation { destination, block });
        if !sheet.transaction(t).veil {
            after.add_shared(t, destination, sheet.transaction(t).needs);
        }
    }
    after
}
