//! Random arguments of the further calls: endings, block lists, steps and bundles.

use super::{
    by_refusal, damage, damage_bytes, groups, manner, near_step, ring_game, Case, Random, MINE,
};
use crate::calls::Call;
use crate::model::ledger::Entry;
use crate::model::setup::Setup;
use crate::model::sheet::Sheet;
use crate::model::{block_list, calls, desk, journal, CONTRACT};
use crate::requests::Request;

/// An ending: a mask and its destinations.
pub type Ending = (u32, Vec<u8>);

/// The paying transactions of a sheet.
pub fn paying(sheet: &Sheet) -> Vec<u8> {
    (0..sheet.count())
        .filter(|&t| !sheet.is_contract(t))
        .collect()
}

/// A mask of some paying transactions, mostly of different coins, with a payee for each.
pub fn ending(random: &mut Random, sheet: &Sheet) -> Ending {
    let mut mask = 0;
    let mut dests = Vec::new();
    let mut coins = Vec::new();
    let share = random.between(5, 60);
    for t in paying(sheet) {
        let coin = sheet.coin(t);
        if !random.percent(share) || coins.contains(&coin) && !random.percent(8) {
            continue;
        }
        coins.push(coin);
        mask |= 1 << t;
        let payee = random.pick(&sheet.payees(t));
        dests.extend(u32::from(payee).to_le_bytes());
    }
    (mask, dests)
}

/// A destination of a transaction that passes 29.
fn destination(random: &mut Random, sheet: &Sheet, t: u8) -> u8 {
    let payees = sheet.payees(t);
    match payees.is_empty() {
        true => CONTRACT,
        false => random.pick(&payees),
    }
}

/// Entries made one by one: mostly transactions whose parent stands already, some blocks later, at times none.
pub fn entries(random: &mut Random, sheet: &Sheet, blocks_per_day: u32) -> Vec<Entry> {
    let mut entries: Vec<Entry> = Vec::new();
    let mut block = 1;
    for _ in 0..random.below(8) {
        let stands = |t: u8| entries.iter().any(|entry| entry.transaction == t);
        let ready: Vec<u8> = (0..sheet.count())
            .filter(|&t| !sheet.rivals(t).iter().any(|&rival| stands(rival)))
            .filter(|&t| sheet.transaction(t).parent.is_none_or(stands))
            .collect();
        let transaction = match ready.is_empty() || random.percent(10) {
            true => random.below(usize::from(sheet.count())) as u8,
            false => random.pick(&ready),
        };
        if random.percent(60) {
            block += random.below(2 * blocks_per_day as usize + 2) as u32;
        }
        let destination = destination(random, sheet, transaction);
        entries.push(Entry {
            transaction,
            destination,
            block,
        });
    }
    if random.percent(80) {
        entries.sort_by_key(|entry| (entry.block, entry.transaction));
    }
    entries
}

/// A step to try after a case's journal: an open one, one that is refused with each number equally often, or bytes of
/// any sort and length.
pub fn next_step(random: &mut Random, (sheet, setup, journal): &Case) -> Vec<u8> {
    let Ok(outcome) = calls::outcome(sheet, setup, journal) else {
        return random.bytes(4);
    };
    let choice = random.below(10);
    if choice == 0 {
        let length = random.below(7);
        return random.bytes(length);
    }
    if choice == 1 {
        return near_step(random, &outcome.sheet).to_vec();
    }
    let position = &outcome.course.position;
    let mut found = by_refusal(&outcome.sheet, &outcome.setup, position);
    let refused = found.split_off(&12);
    let lists: Vec<Vec<[u8; 4]>> = match choice < 6 {
        true => found.remove(&0).into_iter().collect(),
        false => refused.into_values().collect(),
    };
    match lists.is_empty() {
        true => MINE.to_vec(),
        false => {
            let list = &lists[random.below(lists.len())];
            random.pick(list).to_vec()
        }
    }
}

/// The list of what a journal confirms, or entries made one by one; at times damaged.
fn list(random: &mut Random, sheet: &Sheet, setup: &Setup) -> Vec<u8> {
    let entries: Vec<Entry> = match random.percent(60) {
        true => entries(random, sheet, setup.blocks_per_day.min(30)),
        false => {
            let manner = manner(random, 80);
            let groups = groups(random, sheet, setup, manner);
            journal::play(sheet, setup, &groups).entries
        }
    };
    let mut list = block_list::bytes(&entries);
    if random.percent(25) {
        damage(random, &mut list);
    }
    list
}

/// Bundles of a few swaps on one sheet: this one's setup and journal, other conducts, damaged journals.
fn bundle(random: &mut Random, (_, setup, journal): &Case) -> Vec<u8> {
    let swap = |random: &mut Random| {
        let (mut setup, mut journal) = (setup.clone(), journal.clone());
        setup.resize(4, 0);
        match random.below(5) {
            0 => setup[2] = random.below(4) as u8,
            1 => damage_bytes(random, &mut setup, 1),
            2 => damage(random, &mut journal),
            3 => journal.truncate(4 * random.below(8)),
            _ => {}
        }
        (setup, journal)
    };
    let count = random.below(5);
    let swaps: Vec<_> = (0..count).map(|_| swap(random)).collect();
    let mut bytes = desk::bundle(&swaps);
    if random.percent(20) {
        damage(random, &mut bytes);
    }
    bytes
}

/// One request of each further call. The case may be damaged; sheet and setup are the sound ones.
pub fn further(random: &mut Random, sheet: &Sheet, setup: &Setup, case: &Case) -> Vec<Request> {
    let (mut mask, mut dests) = ending(random, sheet);
    match random.below(8) {
        0 => mask ^= 1 << random.below(32),
        1 => damage(random, &mut dests),
        _ => {}
    }
    let step = next_step(random, case);
    let steps = (case.2.len() / 4) as u32;
    let count = steps + u32::from(random.percent(10));
    let size = match random.below(8) {
        0 => random.below(case.2.len() + 9) as u32,
        _ => case.2.len() as u32,
    };
    let blocks = random.pick(&[0, 1, 2, 5, 144, 2_147_483_647, u32::MAX]);
    let base = random.pick(&[0, 800_000, 499_999_000, 500_000_000, u32::MAX]);
    vec![
        Request::Page,
        Request::Outage { blocks },
        Request::Slack,
        Request::Timelocks { base },
        Request::Desk {
            bundle: bundle(random, case),
        },
        Request::Blocks {
            list: list(random, sheet, setup),
        },
        Request::Earliest { mask, dests },
        Request::Ask { step: step.clone() },
        Request::Commit { step, count, size },
        Request::Shrink,
    ]
}

/// One request of each of the fourteen calls.
pub fn every(random: &mut Random, sheet: &Sheet, setup: &Setup, case: &Case) -> Vec<Request> {
    let mut requests = [Call::Check, Call::Run, Call::List, Call::Report]
        .map(Request::Four)
        .to_vec();
    requests.extend(further(random, sheet, setup, case));
    requests
}

/// A sheet of three with its setup and, mostly, a journal that is accepted whole.
pub fn ring_front(random: &mut Random, most: usize) -> Case {
    let game = ring_game(random);
    front(random, game, most)
}

/// A game with, mostly, a journal that is accepted whole.
pub fn front(random: &mut Random, (sheet, setup): (Vec<u8>, Vec<u8>), most: usize) -> Case {
    let manner = manner(random, most);
    let mut journal = super::journal(random, &sheet, &setup, manner);
    if random.percent(80) {
        journal.truncate(4 * calls::run(&sheet, &setup, &journal).accepted);
    }
    (sheet, setup, journal)
}
