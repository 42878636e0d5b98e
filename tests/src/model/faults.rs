//! Lines of document 01's rules that the claims rest on, each with a switch that
//! breaks it. The calls have none of these faults.

/// The faults that a game has.
#[derive(Clone, Copy, Debug, PartialEq, Eq)]
pub struct Faults {
    /// Sends pass at "a lock reached at its height minus one".
    pub lock_a_block_early: bool,
    /// A bump lets the named transaction enter and leaves its waiting ancestors
    /// outside: "a bump that leaves the block without a parent".
    pub bump_alone: bool,
    /// No block entry leaves before a bump.
    pub bump_beside_rivals: bool,
    /// A block is mined though a bump is owed.
    pub mines_though_owed: bool,
    /// "a secret shared by a hand-in before its block".
    pub hand_in_shares: bool,
    /// Alice shares success in phase 2 as in phase 3.
    pub success_in_phase_2: bool,
}

impl Faults {
    pub const NONE: Faults = Faults {
        lock_a_block_early: false,
        bump_alone: false,
        bump_beside_rivals: false,
        mines_though_owed: false,
        hand_in_shares: false,
        success_in_phase_2: false,
    };
}
