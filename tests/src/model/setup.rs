//! The setup: blocks per day, conduct, stealth; checks 9, 32 and 10.

use super::faults::Faults;
use super::sheet::{self, Head};
use super::slips::Slips;

/// "conduct (0 open, 1 loose, 2 careful)".
#[derive(Clone, Copy, Debug, PartialEq, Eq)]
pub enum Conduct {
    Open,
    Loose,
    Careful,
}

/// A setup that passed checks 9, 32 and 10.
#[derive(Clone, Copy, Debug, PartialEq, Eq)]
pub struct Setup {
    pub blocks_per_day: u32,
    pub conduct: Conduct,
    /// Whether a hand-in to the miner is possible.
    pub stealth: bool,
    /// The rules that the game goes by; no byte of the setup tells.
    pub slips: Slips,
    /// Rules that are broken, likewise.
    pub faults: Faults,
}

/// "blocks per day (2 bytes, 1 to 1,000)", little-endian.
fn blocks_per_day(bytes: &[u8]) -> u16 {
    u16::from_le_bytes([bytes[0], bytes[1]])
}

/// 9: "setup not 4 bytes, or blocks per day".
fn length_or_blocks_wrong(bytes: &[u8]) -> bool {
    bytes.len() != 4 || !(1..=1000).contains(&blocks_per_day(bytes))
}

/// 32: "when a three-party sheet comes with conduct 1 or 2; tested before 10".
fn conduct_of_three(sheet_bytes: &[u8], bytes: &[u8]) -> bool {
    Head::of(sheet_bytes).parties.len() == 3 && (bytes[2] == 1 || bytes[2] == 2)
}

/// 10: "conduct or stealth, or sheet unfit for it".
fn conduct_or_stealth_wrong(sheet_bytes: &[u8], bytes: &[u8]) -> bool {
    bytes[2] > 2 || bytes[3] > 1 || unfit(sheet_bytes, bytes)
}

/// "Conduct 1 and 2 take only the SASwap sheet for that number of blocks."
fn unfit(sheet_bytes: &[u8], bytes: &[u8]) -> bool {
    bytes[2] != 0 && sheet_bytes != sheet::saswap(blocks_per_day(bytes))
}

/// The number of the first check that the setup fails, 0 if none, for a sheet
/// that passed its own checks.
pub fn check(sheet_bytes: &[u8], bytes: &[u8]) -> u32 {
    if length_or_blocks_wrong(bytes) {
        9
    } else if conduct_of_three(sheet_bytes, bytes) {
        32
    } else if conduct_or_stealth_wrong(sheet_bytes, bytes) {
        10
    } else {
        0
    }
}

/// The setup that the bytes stand for, or the number of the check they fail.
pub fn read(sheet_bytes: &[u8], bytes: &[u8]) -> Result<Setup, u32> {
    match check(sheet_bytes, bytes) {
        0 => Ok(Setup {
            blocks_per_day: u32::from(blocks_per_day(bytes)),
            conduct: match bytes[2] {
                0 => Conduct::Open,
                1 => Conduct::Loose,
                _ => Conduct::Careful,
            },
            stealth: bytes[3] == 1,
            slips: Slips::ALL,
            faults: Faults::NONE,
        }),
        number => Err(number),
    }
}
