//! Document 02: the changes of document 01's rules, each with a switch. The calls
//! follow them all.

/// The slips that a game goes by. Where one is switched off, the older rule holds
/// in its place.
#[derive(Clone, Copy, Debug, PartialEq, Eq)]
pub struct Slips {
    /// Slip 1: "Waiting children stay in the pool."
    pub waiting_children_stay: bool,
    /// Slip 3: "Lock before signature."
    pub lock_before_signature: bool,
    /// Slip 6: "In phase 2 Alice may now send any transaction under the same
    /// conduct tests as in phase 3"; before it "Phase 2: Alice waits."
    pub alice_sends_in_phase_2: bool,
    /// Slip 9: "Each transaction's bytes in the report gain this count at their
    /// end"; before it a row had 14 bytes.
    pub first_open_in_report: bool,
    /// Slip 10: "Three-way swaps."; before it the first byte of a sheet is n, and
    /// the parties are Alice and Bob.
    pub three_parties: bool,
}

impl Slips {
    pub const ALL: Slips = Slips {
        waiting_children_stay: true,
        lock_before_signature: true,
        alice_sends_in_phase_2: true,
        first_open_in_report: true,
        three_parties: true,
    };
}
