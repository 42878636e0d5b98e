//! The seven kinds of step: the tests of each, and its effect.

use super::conduct;
use super::contract::{Conduct, Contract};
use super::position::Position;
use super::{bits, require, Checked, ALL, CONTRACT, MINER};

/// "10,000 blocks mined".
const MOST_BLOCKS: u32 = 10_000;

/// Takes a step, or refuses it and leaves the position as it is. It is inlined, so that where the kind is known only its
/// own tests and effect remain.
#[inline(always)]
pub fn take(contract: &Contract, position: &mut Position, step: [u8; 4]) -> Checked {
    let [kind, party, t, to] = step;
    match kind {
        1 => take_share(contract, position, party, t, to),
        2 => take_give(contract, position, party, t, to),
        3 => take_send(contract, position, party, t, to),
        4 => take_hand_in(contract, position, party, t, to),
        5 => take_include(contract, position, party, t, to),
        6 => take_mine(contract, position, party, t, to),
        7 => take_bump(contract, position, party, t, to),
        _ => Err(11),
    }
}

/// Whether a party is a payee of a transaction.
fn is_payee(contract: &Contract, t: usize, party: u8) -> bool {
    contract.is_party(party) && contract.pays[usize::from(party)] >> t & 1 == 1
}

// 1 Share.

#[inline(always)]
fn take_share(contract: &Contract, position: &mut Position, party: u8, t: u8, to: u8) -> Checked {
    require(contract.is_party(party) && shares_to(contract, t, to), 11)?;
    check_share(contract, position, party, t, to)?;
    for t in shared_by(party, t) {
        let signatures = share_set(contract, position, party, t);
        position.share(t, to, signatures);
        position.made[usize::from(party)][usize::from(to)] |= 1 << t;
    }
    Ok(())
}

/// 11 for the transaction and the destination of a share.
fn shares_to(contract: &Contract, t: u8, to: u8) -> bool {
    if t == ALL {
        return contract.conduct != Conduct::Open && to == CONTRACT;
    }
    contract.has(t)
        && match contract.is_contract(t.into()) {
            true => to == CONTRACT,
            false => is_payee(contract, t.into(), to),
        }
}

/// 13 for a share.
pub fn check_share(contract: &Contract, position: &Position, party: u8, t: u8, to: u8) -> Checked {
    require(conduct::may_share(contract, position, party, t), 13)?;
    let made = position.made[usize::from(party)][usize::from(to)];
    let is_new = |t: usize| made >> t & 1 == 0 && share_set(contract, position, party, t) != 0;
    require(shared_by(party, t).all(is_new), 13)
}

/// The transactions that a share is about.
fn shared_by(party: u8, t: u8) -> impl Iterator<Item = usize> {
    bits(match t {
        ALL => conduct::first_shares(party),
        _ => 1 << t,
    })
}

/// "the party's held, required, non-secret signatures on that transaction".
fn share_set(contract: &Contract, position: &Position, party: u8, t: usize) -> u8 {
    position.held[usize::from(party)] & contract.transactions[t].needs & !contract.secrets
}

// 2 Give.

#[inline(always)]
fn take_give(contract: &Contract, position: &mut Position, party: u8, i: u8, to: u8) -> Checked {
    let parties = contract.is_party(party) && contract.is_party(to) && party != to;
    require(parties && i < contract.signatures, 11)?;
    check_give(contract, position, party, i, to)?;
    position.held[usize::from(to)] |= 1 << i;
    Ok(())
}

/// 13 for a give to another party.
pub fn check_give(contract: &Contract, position: &Position, party: u8, i: u8, to: u8) -> Checked {
    require(conduct::may_give(contract, position, party, i), 13)?;
    let [giver, receiver] = [party, to].map(|p| position.held[usize::from(p)]);
    require((giver & !receiver) >> i & 1 == 1, 13)
}

// 3 Send to pool, and 4 Hand to miner.

/// 11 for a send.
fn sends_to(contract: &Contract, party: u8, t: u8, to: u8) -> bool {
    contract.is_party(party)
        && contract.has(t)
        && match contract.is_contract(t.into()) {
            true => to == CONTRACT,
            false => to == party && is_payee(contract, t.into(), party),
        }
}

/// 13 for a send.
fn check_conduct(contract: &Contract, position: &Position, party: u8, t: usize) -> Checked {
    let sendable = conduct::sendable(contract, position, party);
    require(sendable >> t & 1 == 1, 13)
}

#[inline(always)]
fn take_send(contract: &Contract, position: &mut Position, party: u8, t: u8, to: u8) -> Checked {
    require(sends_to(contract, party, t, to), 11)?;
    let t = usize::from(t);
    check_conduct(contract, position, party, t)?;
    check_send(contract, position, party, t, to)?;
    position.pool |= 1 << t;
    position.pool_to[t] = to;
    position.share(t, to, contract.transactions[t].exposes);
    Ok(())
}

/// 14, 15, 17, 16 and 18 of a send to the pool.
pub fn check_send(
    contract: &Contract,
    position: &Position,
    party: u8,
    t: usize,
    to: u8,
) -> Checked {
    let there = position.pool | position.confirmed;
    check_both(contract, position, there, party, t, to)?;
    let deadline = position.deadline(contract, &contract.transactions[t]);
    require(position.mined < deadline, 18)
}

/// 14, 15, 17 and 16, which are the same for kinds 3 and 4 but for what is there.
fn check_both(
    contract: &Contract,
    position: &Position,
    there: u32,
    party: u8,
    t: usize,
    to: u8,
) -> Checked {
    let x = &contract.transactions[t];
    require(x.rivals & there == 0, 14)?;
    require(x.parent_mask & !there == 0, 15)?;
    require(position.lock_height(x) <= position.mined, 17)?;
    let signatures = position.signatures(contract, party, t, to);
    require(x.needs & !signatures == 0, 16)
}

#[inline(always)]
fn take_hand_in(contract: &Contract, position: &mut Position, party: u8, t: u8, to: u8) -> Checked {
    require(sends_to(contract, party, t, to), 11)?;
    require(contract.stealth, 12)?;
    let t = usize::from(t);
    check_conduct(contract, position, party, t)?;
    check_hand_in(contract, position, party, t, to)?;
    position.block |= 1 << t;
    position.block_to[t] = to;
    Ok(())
}

/// 12, 14, 15, 17 and 16 of a hand-in.
pub fn check_hand_in(
    contract: &Contract,
    position: &Position,
    party: u8,
    t: usize,
    to: u8,
) -> Checked {
    require(contract.stealth, 12)?;
    let there = position.block | position.confirmed;
    check_both(contract, position, there, party, t, to)
}

// 5 Include.

#[inline(always)]
fn take_include(contract: &Contract, position: &mut Position, party: u8, t: u8, to: u8) -> Checked {
    require(party == MINER && contract.has(t) && to == CONTRACT, 11)?;
    let t = usize::from(t);
    check_include(contract, position, t, position.any_owed(contract))?;
    position.block |= 1 << t;
    position.block_to[t] = position.pool_to[t];
    Ok(())
}

/// 14, 15, 19 and 20 of an inclusion, where it is known whether any bump is owed.
pub fn check_include(contract: &Contract, position: &Position, t: usize, owed: bool) -> Checked {
    let x = &contract.transactions[t];
    let there = position.block | position.confirmed;
    require(x.rivals & there == 0, 14)?;
    require(x.parent_mask & !there == 0, 15)?;
    require(position.pool >> t & 1 == 1, 19)?;
    require(!owed, 20)
}

// 6 Mine.

#[inline(always)]
fn take_mine(contract: &Contract, position: &mut Position, party: u8, t: u8, to: u8) -> Checked {
    require(party == MINER && t == ALL && to == CONTRACT, 11)?;
    check_mine(position, position.any_owed(contract))?;
    mine(contract, position);
    Ok(())
}

/// 20, 22 and 23.
pub fn check_mine(position: &Position, owed: bool) -> Checked {
    require(!owed, 20)?;
    require(position.block != 0 || position.confirmed & 1 == 1, 22)?;
    require(position.mined < MOST_BLOCKS, 23)
}

/// "the block is confirmed and its entries shared as in 3"; Slip 1: "a mined transaction leaves the pool itself. Others
/// leave exactly if their line meets a different rival of a mined one."
fn mine(contract: &Contract, position: &mut Position) {
    position.mined += 1;
    for t in bits(position.block) {
        let to = position.block_to[t];
        position.confirmed_to[t] = to;
        position.height[t] = position.mined as u16;
        position.share(t, to, contract.transactions[t].exposes);
    }
    position.confirmed |= position.block;
    let rivals = bits(position.block).fold(0, |all, t| {
        all | contract.transactions[t].rivals & !(1 << t)
    });
    position.pool &= !(position.block | meeting(contract, position.pool, rivals));
    position.block = 0;
}

/// The entries whose line meets the set.
fn meeting(contract: &Contract, entries: u32, set: u32) -> u32 {
    bits(entries)
        .filter(|&t| contract.transactions[t].line & set != 0)
        .fold(0, |all, t| all | 1 << t)
}

// 7 Bump.

#[inline(always)]
fn take_bump(contract: &Contract, position: &mut Position, party: u8, t: u8, to: u8) -> Checked {
    require(party == MINER && contract.has(t) && to == CONTRACT, 11)?;
    let t = usize::from(t);
    require(position.owed(contract, t), 21)?;
    bump(contract, position, t);
    Ok(())
}

/// "It and, here, all its waiting ancestors outside the block enter; block entries whose line meets a rival of these
/// leave first."
fn bump(contract: &Contract, position: &mut Position, t: usize) {
    let entering = contract.transactions[t].line & position.pool & !position.block;
    let rivals = bits(entering).fold(0, |all, t| all | contract.transactions[t].rivals);
    position.block &= !meeting(contract, position.block, rivals);
    position.block |= entering;
    for t in bits(entering) {
        position.block_to[t] = position.pool_to[t];
    }
}
