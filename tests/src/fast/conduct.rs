//! Conduct: what loose and careful parties may do with the SASwap sheet.

use super::contract::{Conduct, Contract};
use super::position::Position;
use super::step::{check_hand_in, check_send};
use super::{bits, ALICE, ALL, BOB, CONTRACT};

/// Transactions of the SASwap sheet.
const LOCK_A: usize = 0;
const LOCK_B: usize = 1;
const SUCCESS: usize = 2;
const REFUND_1: usize = 3;
const REVOKE: usize = 4;
const REFUND_2: usize = 5;
const TIMEOUT: usize = 6;
const SPEND_B: usize = 8;

/// Its signatures, as masks.
const SIG_ALICE: u8 = 1;
const SECRET_ALICE: u8 = 4;
const SECRET_BOB: u8 = 8;

/// "Alice shares revoke and timeout, Bob refund_1, revoke, refund_2 and timeout", for the contract.
pub fn first_shares(party: u8) -> u32 {
    match party {
        ALICE => 1 << REVOKE | 1 << TIMEOUT,
        _ => 1 << REFUND_1 | 1 << REVOKE | 1 << REFUND_2 | 1 << TIMEOUT,
    }
}

fn made_first_shares(position: &Position, party: u8) -> bool {
    let made = position.made[usize::from(party)][usize::from(CONTRACT)];
    first_shares(party) & !made == 0
}

/// "Phase 3: lock_B confirmed; else 2: lock_A confirmed; else 1: both first shares made; else 0."
fn phase(position: &Position) -> u8 {
    if position.confirmed >> LOCK_B & 1 == 1 {
        3
    } else if position.confirmed >> LOCK_A & 1 == 1 {
        2
    } else {
        u8::from(made_first_shares(position, ALICE) && made_first_shares(position, BOB))
    }
}

/// "Late: blocks mined ≥ deadline of success."
fn late(contract: &Contract, position: &Position) -> bool {
    position.mined >= position.deadline(contract, &contract.transactions[SUCCESS])
}

/// Whether conduct allows a share.
pub fn may_share(contract: &Contract, position: &Position, party: u8, t: u8) -> bool {
    if contract.conduct == Conduct::Open {
        return true;
    }
    match (phase(position), party) {
        (0, _) => t == ALL,
        (3, ALICE) => {
            let refund_1 = (position.pool | position.confirmed) >> REFUND_1 & 1 == 1;
            usize::from(t) == SUCCESS && !refund_1 && !late(contract, position)
        }
        _ => false,
    }
}

/// Whether conduct allows a give of signature i.
pub fn may_give(contract: &Contract, position: &Position, party: u8, i: u8) -> bool {
    if contract.conduct == Conduct::Open {
        return true;
    }
    let allowed = match (phase(position), party) {
        (3, ALICE) => 1 << i == SIG_ALICE && position.held[0] & SECRET_BOB != 0,
        (2 | 3, BOB) => {
            let for_success = position.signatures(contract, BOB, SUCCESS, CONTRACT);
            1 << i == SECRET_BOB && for_success & (SIG_ALICE | SECRET_ALICE) == SIG_ALICE
        }
        _ => false,
    };
    allowed && !late(contract, position)
}

/// The transactions that conduct allows a party to send.
pub fn sendable(contract: &Contract, position: &Position, party: u8) -> u32 {
    if contract.conduct == Conduct::Open {
        return u32::MAX;
    }
    let named = match (phase(position), party) {
        (1, ALICE) => 1 << LOCK_A,
        (2 | 3, ALICE | BOB) => u32::MAX,
        _ => 0,
    };
    match contract.conduct {
        Conduct::Careful => careful(contract, position, party, named),
        _ => named,
    }
}

/// "Careful only", of the transactions that a party may send otherwise.
fn careful(contract: &Contract, position: &Position, party: u8, named: u32) -> u32 {
    let safe = match party {
        ALICE => named & !unsafe_for_alice(contract, position),
        _ => named,
    };
    match can_pay(contract, position, party, safe) {
        true => safe & !contract.contracts,
        false => safe,
    }
}

/// "Alice sends refund_1 only while success has no shared entry (by a share, a pool send or a mined block). Of the others
/// that need secretAlice, once she holds secretBob she sends spend_B only."
fn unsafe_for_alice(contract: &Contract, position: &Position) -> u32 {
    let shared = position.shared[SUCCESS][usize::from(CONTRACT)] != 0;
    let mut found = u32::from(shared) << REFUND_1;
    if position.held[0] & SECRET_BOB != 0 {
        found |= bits(!(1 << REFUND_1 | 1 << SPEND_B))
            .filter(|&t| contract.transactions[t].needs & SECRET_ALICE != 0)
            .fold(0, |all, t| all | 1 << t);
    }
    found
}

/// Whether the party's send of some paying transaction among these would pass all rules.
fn can_pay(contract: &Contract, position: &Position, party: u8, among: u32) -> bool {
    bits(among & contract.pays[usize::from(party)]).any(|t| {
        check_send(contract, position, party, t, party).is_ok()
            || check_hand_in(contract, position, party, t, party).is_ok()
    })
}
