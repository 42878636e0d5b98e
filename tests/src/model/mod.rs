//! The reference model, one file for each idea of document 01. In its order:
//! sheet, setup, heights, report (holders and payouts), ledger, position, step,
//! conduct, journal, open, calls, swapreport; slips, document 02's changes of
//! them; claims, what demand 3 says of them; invariants, what document 001's
//! model checks of them; faults, rules that the claims fail without; first_open, the counts of Slip 9; and a file for each further
//! call.

pub mod asks;
pub mod block_list;
pub mod calls;
pub mod claims;
pub mod conduct;
pub mod desk;
pub mod ending;
pub mod faults;
pub mod first_open;
pub mod heights;
pub mod invariants;
pub mod journal;
pub mod ledger;
pub mod open;
pub mod outage;
pub mod page;
pub mod position;
pub mod report;
pub mod setup;
pub mod sheet;
pub mod shrink;
pub mod slips;
pub mod step;
pub mod swapreport;
pub mod timelocks;

/// The parties by number: "0 Alice, 1 Bob, 2 miner"; Slip 10: "Carol is party 3
/// and destination 3".
pub const ALICE: u8 = 0;
pub const BOB: u8 = 1;
pub const MINER: u8 = 2;
pub const CAROL: u8 = 3;

/// The destination of a contract transaction: "0 Alice, 1 Bob, 2 contract".
pub const CONTRACT: u8 = 2;
