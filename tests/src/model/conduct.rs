//! Conduct: what loose and careful parties do with the SASwap sheet.

use super::position::{contains, Position};
use super::setup::Conduct;
use super::step::{first_failed, Case, Kind, Step, ALL};
use super::{ALICE, BOB, CONTRACT};

/// The transactions of the SASwap sheet that conduct names.
pub const LOCK_A: u8 = 0;
pub const LOCK_B: u8 = 1;
pub const SUCCESS: u8 = 2;
pub const REFUND_1: u8 = 3;
pub const REVOKE: u8 = 4;
pub const REFUND_2: u8 = 5;
pub const TIMEOUT: u8 = 6;
pub const SPEND_B: u8 = 8;

/// The signature numbers of the SASwap sheet that conduct names.
pub const SIG_ALICE: u8 = 0;
pub const SECRET_ALICE: u8 = 2;
pub const SECRET_BOB: u8 = 3;

/// "Alice shares revoke and timeout, Bob refund_1, revoke, refund_2 and timeout."
pub fn first_shares(party: u8) -> &'static [u8] {
    match party {
        ALICE => &[REVOKE, TIMEOUT],
        _ => &[REFUND_1, REVOKE, REFUND_2, TIMEOUT],
    }
}

fn first_shares_made(position: &Position, party: u8) -> bool {
    let made = |t: u8| position.shares.contains(&(party, t, CONTRACT));
    first_shares(party).iter().all(|&t| made(t))
}

/// "Phase 3: lock_B confirmed; else 2: lock_A confirmed; else 1: both first
/// shares made; else 0."
pub fn phase(position: &Position) -> u8 {
    if position.is_confirmed(LOCK_B) {
        3
    } else if position.is_confirmed(LOCK_A) {
        2
    } else if first_shares_made(position, ALICE) && first_shares_made(position, BOB) {
        1
    } else {
        0
    }
}

/// "Late: blocks mined ≥ deadline of success."
fn late(case: &Case) -> bool {
    case.position.mined >= case.deadline(SUCCESS)
}

/// 13 by conduct: "a step of Alice or Bob not named below gets 13".
pub fn breaks(case: &Case) -> bool {
    match case.setup.conduct {
        Conduct::Open => false,
        Conduct::Loose => !named(case),
        Conduct::Careful => !named(case) || !careful(case),
    }
}

/// Whether the lines for this phase and party name the step. Of phase 2 by Slip 6:
/// "Alice may now send any transaction under the same conduct tests as in phase 3;
/// she neither shares success nor gives keys there."
fn named(case: &Case) -> bool {
    match (phase(case.position), case.step.party) {
        (0, _) => is_first_share(case),
        (1, ALICE) => is_send(case) && case.step.transaction == LOCK_A,
        (2, ALICE) => {
            case.setup.slips.alice_sends_in_phase_2 && is_send(case)
                || case.setup.faults.success_in_phase_2 && shares_success(case)
        }
        (2, BOB) | (3, BOB) => is_send(case) || gives_secret_bob(case),
        (3, ALICE) => is_send(case) || gives_sig_alice(case) || shares_success(case),
        _ => false,
    }
}

/// "each as one step (transaction 255, destination 2)".
fn is_first_share(case: &Case) -> bool {
    case.step.kind == Kind::Share && case.step.transaction == ALL
}

/// "To send means kind 3 or 4."
fn is_send(case: &Case) -> bool {
    matches!(case.step.kind, Kind::SendToPool | Kind::HandToMiner)
}

/// "He gives secretBob if he has sigAlice and lacks secretAlice for success, and
/// it isn't late."
fn gives_secret_bob(case: &Case) -> bool {
    let for_success = case.position.signatures(case.sheet, BOB, SUCCESS, CONTRACT);
    case.step.kind == Kind::Give
        && case.step.transaction == SECRET_BOB
        && contains(for_success, SIG_ALICE)
        && !contains(for_success, SECRET_ALICE)
        && !late(case)
}

/// "Alice gives sigAlice if she holds secretBob and it isn't late".
fn gives_sig_alice(case: &Case) -> bool {
    case.step.kind == Kind::Give
        && case.step.transaction == SIG_ALICE
        && case.position.holds(ALICE, SECRET_BOB)
        && !late(case)
}

/// "shares success if refund_1 is neither in pool nor confirmed and it isn't
/// late".
fn shares_success(case: &Case) -> bool {
    case.step.kind == Kind::Share
        && case.step.transaction == SUCCESS
        && !case.position.in_pool(REFUND_1)
        && !case.position.is_confirmed(REFUND_1)
        && !late(case)
}

/// The lines marked "Careful only"; they are all about sends.
fn careful(case: &Case) -> bool {
    !is_send(case) || safe_for_alice(case) && paying_first(case)
}

/// "Alice sends refund_1 only while success has no shared entry (by a share, a
/// pool send or a mined block). Of the others that need secretAlice, once she
/// holds secretBob she sends spend_B only."
fn safe_for_alice(case: &Case) -> bool {
    let t = case.step.transaction;
    if case.step.party != ALICE {
        true
    } else if t == REFUND_1 {
        !case.position.shared.contains_key(&(SUCCESS, CONTRACT))
    } else if contains(case.sheet.transaction(t).needs, SECRET_ALICE) {
        !case.position.holds(ALICE, SECRET_BOB) || t == SPEND_B
    } else {
        true
    }
}

/// "A party whose send of some paying transaction would pass all these rules
/// sends no contract one."
fn paying_first(case: &Case) -> bool {
    let sheet = case.sheet;
    !sheet.is_contract(case.step.transaction)
        || !(0..sheet.count()).any(|t| !sheet.is_contract(t) && could_send(case, t))
}

/// Whether the party's send of a paying transaction, by kind 3 or by kind 4,
/// would be accepted.
fn could_send(case: &Case, t: u8) -> bool {
    let party = case.step.party;
    let send = |kind: Kind| {
        let step = Step {
            kind,
            party,
            transaction: t,
            destination: party,
        };
        first_failed(&case.with(step)) == 0
    };
    case.sheet.is_payee(t, party) && (send(Kind::SendToPool) || send(Kind::HandToMiner))
}
