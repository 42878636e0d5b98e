//! The text form of a swap, as `docs/FORMATS.md` has it, written from the model's reading of the bytes.

use crate::calendar::words::Names;
use crate::model::setup::{self, Conduct, Setup};
use crate::model::sheet::{self, Lock, Sheet};
use crate::model::{ALICE, BOB, CAROL, CONTRACT};
use crate::random::{Case, MINE};

fn party(party: u8) -> &'static str {
    match party {
        ALICE => "alice",
        BOB => "bob",
        CAROL => "carol",
        _ => panic!("the miner has no name in a text"),
    }
}

fn setup_lines(setup: &Setup) -> String {
    let conduct = match setup.conduct {
        Conduct::Open => "open",
        Conduct::Loose => "loose",
        Conduct::Careful => "careful",
    };
    let stealth = if setup.stealth { "yes" } else { "no" };
    let blocks = setup.blocks_per_day;
    format!("blocks per day: {blocks}\nconduct: {conduct}\nstealth: {stealth}\n")
}

fn mask(mask: u8) -> String {
    let bits = (0..8).filter(|bit| mask >> bit & 1 == 1);
    let numbers: Vec<String> = bits.map(|bit| bit.to_string()).collect();
    match numbers.is_empty() {
        true => "none".to_string(),
        false => numbers.join(" "),
    }
}

fn days(days: u8) -> String {
    format!("{days} day{}", if days == 1 { "" } else { "s" })
}

/// Both of two parties are "either"; others have their names.
fn payees(sheet: &Sheet, t: u8) -> String {
    let payees = sheet.payees(t);
    match (payees.len(), sheet.parties.len()) {
        (0, _) => "nobody".to_string(),
        (2, 2) => "either".to_string(),
        _ => payees
            .iter()
            .map(|&payee| party(payee))
            .collect::<Vec<_>>()
            .join(" or "),
    }
}

fn sheet_lines(sheet: &Sheet) -> String {
    let (signatures, secrets) = (sheet.signatures, mask(sheet.secrets));
    let mut text = format!("sheet:\nsignatures: {signatures}\nsecrets: {secrets}\n");
    for &number in sheet.parties {
        let held = mask(sheet.held[usize::from(number)]);
        text += &format!("{} holds: {held}\n", party(number));
    }
    for (t, transaction) in sheet.transactions.iter().enumerate() {
        let parent = match transaction.parent {
            None => "opens a coin".to_string(),
            Some(parent) => format!("spends {parent}"),
        };
        let payees = payees(sheet, t as u8);
        let veil = if transaction.veil { ", veiled" } else { "" };
        let lock = match transaction.lock {
            Lock::None => String::new(),
            Lock::Absolute { days: d } => format!(", locked for {}", days(d)),
            Lock::SinceParent { days: d } => format!(", locked for {} after its parent", days(d)),
        };
        let needs = mask(transaction.needs);
        text += &format!("transaction {t}: {parent}, pays {payees}, needs {needs}{veil}{lock}\n");
    }
    text
}

/// A step in words; a block that is mined stands alone.
pub fn step_words(names: &Names, step: &[u8]) -> String {
    let (by, name) = (step[1], |t| names.transaction(t));
    let words = match (step[0], step[2]) {
        (6, _) => return "mine the block".to_string(),
        (1, 255) => return format!("{} makes the first shares", party(by)),
        (2, number) => {
            let (signature, to) = (names.signature(number), party(step[3]));
            return format!("{} gives {signature} to {to}", party(by));
        }
        (1, t) => format!("{} shares signatures on {}", party(by), name(t)),
        (3, t) => format!("{} sends {} to the pool", party(by), name(t)),
        (4, t) => format!("{} hands {} to the miner", party(by), name(t)),
        (5, t) => format!("include {} in the block", name(t)),
        (_, t) => format!("bump {} into the block", name(t)),
    };
    match step[3] {
        CONTRACT => words,
        payee => format!("{words}, paying {}", party(payee)),
    }
}

fn journal_lines(names: &Names, journal: &[u8]) -> String {
    let steps: Vec<&[u8]> = journal.chunks(4).collect();
    let mut text = "journal:\n".to_string();
    let mut mined = 0;
    for row in steps.chunk_by(|a, b| *a == MINE && *b == MINE) {
        let first = mined + 1;
        match (row[0] == MINE, row.len()) {
            (false, _) => text += &format!("{}\n", step_words(names, row[0])),
            (true, 1) => text += &format!("mine the block # block {first}\n"),
            (true, n) => text += &format!("mine {n} blocks # blocks {first} to {}\n", mined + n),
        }
        mined += if row[0] == MINE { row.len() } else { 0 };
    }
    text
}

/// The text of a swap that is accepted, and of a side's name.
pub fn text((sheet, setup, journal): &Case, side: Option<&str>) -> String {
    let read_setup = setup::read(sheet, setup).expect("a valid setup");
    let names = Names::of(sheet, read_setup.blocks_per_day as u16);
    let side = side.map_or(String::new(), |side| format!("side: {side}\n"));
    let sheet = match names.saswap {
        true => "sheet: saswap\n".to_string(),
        false => sheet_lines(&sheet::read(sheet).expect("a valid sheet")),
    };
    let (setup, journal) = (setup_lines(&read_setup), journal_lines(&names, journal));
    format!("{setup}{side}\n{sheet}\n{journal}")
}
