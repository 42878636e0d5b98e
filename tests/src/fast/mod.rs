//! The four calls of document 01 in plain Rust with masks and arrays: what the benchmark measures the library by. Each
//! call answers the one number that C gets. The sheet is read once for each call. The steps are taken in one of two forms:
//! the position is lent to them, or goes in and comes back by value.

mod calls;
mod conduct;
mod contract;
mod form;
mod open;
mod opened;
mod position;
mod rows;
mod step;

pub use calls::{check, list, report, run};
pub use form::{ByValue, Lent};

/// The bytes of the library's position, and so of this one's.
pub const POSITION: usize = 392;
const _: () = assert!(size_of::<position::Position>() == POSITION);

/// The most transactions of a sheet.
const MOST: usize = 32;
/// "2147483647 (never)".
const NEVER: u32 = 2_147_483_647;
/// The transaction byte of kind 6, and of the first shares under conduct.
const ALL: u8 = 255;

/// "party (0 Alice, 1 Bob, 2 miner)"; Slip 10: "Carol is party 3 and destination 3".
const ALICE: u8 = 0;
const BOB: u8 = 1;
const MINER: u8 = 2;
const CAROL: u8 = 3;
/// "destination (0 Alice, 1 Bob, 2 contract)".
const CONTRACT: u8 = 2;
/// The numbers of parties and destinations are below this one.
const NUMBERS: usize = 4;

/// A refusal's number, where something is refused.
type Checked = Result<(), u32>;

/// The refusal of this number unless the condition holds.
fn require(condition: bool, number: u32) -> Checked {
    match condition {
        true => Ok(()),
        false => Err(number),
    }
}

/// The numbers of a mask's bits, rising.
fn bits(mut mask: u32) -> impl Iterator<Item = usize> {
    std::iter::from_fn(move || {
        let lowest = mask.trailing_zeros() as usize;
        mask &= mask.wrapping_sub(1);
        (lowest < MOST).then_some(lowest)
    })
}
