//! The sheet: its head, its fields, the checks 1 to 8, and the SASwap sheet.

use super::heights;
use super::slips::Slips;
use super::{ALICE, BOB, CAROL};
use std::collections::BTreeSet;

/// "n transactions (1 to 32)".
pub const MOST_TRANSACTIONS: u8 = 32;
/// "s signatures (1 to 8)".
pub const MOST_SIGNATURES: u8 = 8;
/// "255 for a coin's opening".
pub const OPENING: u8 = 255;
/// "A first byte of 128 or more is 128 + n and announces a sheet with a third
/// start mask".
pub const THREE: u8 = 128;

/// What the first byte of a sheet announces.
#[derive(Clone, Copy, Debug, PartialEq, Eq)]
pub struct Head {
    /// n, the number of transactions.
    pub count: u8,
    /// The parties by number, in the order of their start masks.
    pub parties: &'static [u8],
}

impl Head {
    /// The head of any bytes; an empty sheet announces nothing.
    pub fn of(bytes: &[u8]) -> Head {
        Head::by(Slips::ALL, bytes)
    }

    /// The same by these slips.
    fn by(slips: Slips, bytes: &[u8]) -> Head {
        let first = bytes.first().copied().unwrap_or(0);
        match slips.three_parties && first >= THREE {
            true => Head {
                count: first - THREE,
                parties: &[ALICE, BOB, CAROL],
            },
            false => Head {
                count: first,
                parties: &[ALICE, BOB],
            },
        }
    }

    /// The bytes before the two arrays: both sizes, the mask of the secrets and a
    /// start mask for each party. "Byte 0 n transactions .., bytes 3 and 4 the masks
    /// held at the start by Alice and Bob"; Slip 10: "a third start mask after Bob's".
    pub fn bytes(&self) -> usize {
        3 + self.parties.len()
    }

    /// "Length is exactly 5 + 6n."; Slip 10: "so its length is 6 + 6n".
    pub fn length(&self) -> usize {
        self.bytes() + 6 * usize::from(self.count)
    }

    /// The payees byte that names every party: 3, and 7 with Carol.
    pub fn everybody(&self) -> u8 {
        self.parties.iter().map(|&party| payee_bit(party)).sum()
    }
}

/// "payees (1 Alice, 2 Bob, ..)"; Slip 10: "Carol is .. payee bit 4". Others have none.
pub fn payee_bit(party: u8) -> u8 {
    match party {
        ALICE => 1,
        BOB => 2,
        CAROL => 4,
        _ => 0,
    }
}

/// "lock type (0 none, 1 absolute, 2 since the parent) and days".
#[derive(Clone, Copy, Debug, PartialEq, Eq)]
pub enum Lock {
    None,
    Absolute { days: u8 },
    SinceParent { days: u8 },
}

/// The fields of one transaction, from both parallel arrays.
#[derive(Clone, Copy, Debug, PartialEq, Eq)]
pub struct Transaction {
    /// None for a coin's opening.
    pub parent: Option<u8>,
    /// "1 Alice, 2 Bob, 3 either, 0 a contract transaction"; 4 Carol, summed.
    pub payees: u8,
    /// "mask of required signatures".
    pub needs: u8,
    /// "1: sending exposes no signature".
    pub veil: bool,
    pub lock: Lock,
}

/// A sheet that passed checks 1 to 8, with the sets that follow from it.
#[derive(Clone, Debug, PartialEq, Eq)]
pub struct Sheet {
    /// The parties by number, in list order.
    pub parties: &'static [u8],
    /// s, the number of signatures.
    pub signatures: u8,
    /// The mask of the signatures that are secrets.
    pub secrets: u8,
    /// The masks held at the start, by party number; the miner, number 2, has none.
    pub held: [u8; 4],
    pub transactions: Vec<Transaction>,
    /// For each transaction, the transactions of its parent.
    pub rivals: Vec<BTreeSet<u8>>,
    /// For each transaction, itself and the line of its parent.
    pub lines: Vec<BTreeSet<u8>>,
    /// For each transaction, those whose parent it is.
    pub children: Vec<BTreeSet<u8>>,
}

impl Sheet {
    /// n, the number of transactions.
    pub fn count(&self) -> u8 {
        self.transactions.len() as u8
    }

    pub fn transaction(&self, number: u8) -> &Transaction {
        &self.transactions[usize::from(number)]
    }

    pub fn rivals(&self, number: u8) -> &BTreeSet<u8> {
        &self.rivals[usize::from(number)]
    }

    pub fn line(&self, number: u8) -> &BTreeSet<u8> {
        &self.lines[usize::from(number)]
    }

    pub fn children(&self, number: u8) -> &BTreeSet<u8> {
        &self.children[usize::from(number)]
    }

    /// A contract transaction has payees 0.
    pub fn is_contract(&self, number: u8) -> bool {
        self.transaction(number).payees == 0
    }

    /// Whether a party, by its number, is among the payees.
    pub fn is_payee(&self, number: u8, party: u8) -> bool {
        self.transaction(number).payees & payee_bit(party) != 0
    }

    /// The payees of a transaction, by number; none of a contract transaction.
    pub fn payees(&self, number: u8) -> Vec<u8> {
        let parties = self.parties.iter().copied();
        parties
            .filter(|&party| self.is_payee(number, party))
            .collect()
    }

    /// Whether a number is one of the parties.
    pub fn is_party(&self, number: u8) -> bool {
        self.parties.contains(&number)
    }

    /// The openings, one for each coin.
    pub fn coins(&self) -> Vec<u8> {
        (0..self.count())
            .filter(|&t| self.transaction(t).parent.is_none())
            .collect()
    }

    /// The coin of a transaction: the opening at the end of its line.
    pub fn coin(&self, number: u8) -> u8 {
        match self.transaction(number).parent {
            None => number,
            Some(parent) => self.coin(parent),
        }
    }
}

/// The six bytes of one transaction: four of the first array, two of the second.
struct Row {
    parent: u8,
    payees: u8,
    needs: u8,
    veil: u8,
    lock_type: u8,
    days: u8,
}

/// The rows of a sheet that passed checks 1 to 4.
fn rows(head: Head, bytes: &[u8]) -> impl Iterator<Item = (u8, Row)> + '_ {
    let n = usize::from(head.count);
    let (first, second) = bytes[head.bytes()..].split_at(4 * n);
    let pairs = first.chunks_exact(4).zip(second.chunks_exact(2));
    pairs.enumerate().map(|(t, (a, b))| {
        let row = Row {
            parent: a[0],
            payees: a[1],
            needs: a[2],
            veil: a[3],
            lock_type: b[0],
            days: b[1],
        };
        (t as u8, row)
    })
}

/// Whether a mask names a signature number of s or more.
fn beyond(mask: u8, s: u8) -> bool {
    (s..8).any(|number| mask >> number & 1 == 1)
}

/// 1: "sheet under 5 bytes"; Slip 10: "1 then means under 6 bytes".
fn head_missing(head: Head, bytes: &[u8]) -> bool {
    bytes.len() < head.bytes()
}

/// 2: "n outside 1 to 32".
fn count_out_of_range(head: Head, _: &[u8]) -> bool {
    !(1..=MOST_TRANSACTIONS).contains(&head.count)
}

/// 3: "s outside 1 to 8, or a head mask beyond s".
fn head_out_of_range(head: Head, bytes: &[u8]) -> bool {
    let s = bytes[1];
    let masks = &bytes[2..head.bytes()];
    !(1..=MOST_SIGNATURES).contains(&s) || masks.iter().any(|&mask| beyond(mask, s))
}

/// 4: "length not 5 + 6n"; Slip 10: "6 + 6n".
fn length_wrong(head: Head, bytes: &[u8]) -> bool {
    bytes.len() != head.length()
}

/// 5: "parent neither 255 nor lower".
fn parent_wrong(head: Head, bytes: &[u8]) -> bool {
    rows(head, bytes).any(|(t, row)| row.parent != OPENING && row.parent >= t)
}

/// 6: "payees, needs (zero too) or veil out of range".
fn fields_out_of_range(head: Head, bytes: &[u8]) -> bool {
    let s = bytes[1];
    let out_of_range = |row: &Row| {
        row.payees > head.everybody() || row.needs == 0 || beyond(row.needs, s) || row.veil > 1
    };
    rows(head, bytes).any(|(_, row)| out_of_range(&row))
}

/// 7: "lock pair out of range, or type 2 without parent".
fn lock_wrong(head: Head, bytes: &[u8]) -> bool {
    rows(head, bytes).any(|(_, row)| match row.lock_type {
        0 => row.days != 0,
        1 => row.days == 0,
        2 => row.days == 0 || row.parent == OPENING,
        _ => true,
    })
}

/// 8: "payees 0 without child, or payees with child".
fn payees_wrong(head: Head, bytes: &[u8]) -> bool {
    let parents: BTreeSet<u8> = rows(head, bytes).map(|(_, row)| row.parent).collect();
    rows(head, bytes).any(|(t, row)| (row.payees == 0) != parents.contains(&t))
}

/// The number of a check and whether bytes that passed the earlier ones fail it.
type Check = (u32, fn(Head, &[u8]) -> bool);

/// "Checks go by rising number": each over the whole sheet before the next.
const CHECKS: [Check; 8] = [
    (1, head_missing),
    (2, count_out_of_range),
    (3, head_out_of_range),
    (4, length_wrong),
    (5, parent_wrong),
    (6, fields_out_of_range),
    (7, lock_wrong),
    (8, payees_wrong),
];

/// The number of the first check that the sheet fails, 0 if none.
pub fn check(bytes: &[u8]) -> u32 {
    check_by(Slips::ALL, bytes)
}

/// The same by these slips.
pub fn check_by(slips: Slips, bytes: &[u8]) -> u32 {
    let head = Head::by(slips, bytes);
    CHECKS
        .iter()
        .find(|(_, fails)| fails(head, bytes))
        .map_or(0, |(number, _)| *number)
}

/// The sheet that the bytes stand for, or the number of the check they fail.
pub fn read(bytes: &[u8]) -> Result<Sheet, u32> {
    read_by(Slips::ALL, bytes)
}

/// The same by these slips.
pub fn read_by(slips: Slips, bytes: &[u8]) -> Result<Sheet, u32> {
    match check_by(slips, bytes) {
        0 => Ok(fields(Head::by(slips, bytes), bytes)),
        number => Err(number),
    }
}

fn fields(head: Head, bytes: &[u8]) -> Sheet {
    let rows = rows(head, bytes);
    let transactions: Vec<Transaction> = rows.map(|(_, row)| transaction(&row)).collect();
    let each = |of: fn(&[Transaction], u8) -> BTreeSet<u8>| -> Vec<BTreeSet<u8>> {
        (0..head.count).map(|t| of(&transactions, t)).collect()
    };
    let mut held = [0; 4];
    for (&party, &mask) in head.parties.iter().zip(&bytes[3..]) {
        held[usize::from(party)] = mask;
    }
    Sheet {
        parties: head.parties,
        signatures: bytes[1],
        secrets: bytes[2],
        held,
        rivals: each(heights::rivals),
        lines: each(heights::line),
        children: each(heights::children),
        transactions,
    }
}

fn transaction(row: &Row) -> Transaction {
    Transaction {
        parent: (row.parent != OPENING).then_some(row.parent),
        payees: row.payees,
        needs: row.needs,
        veil: row.veil == 1,
        lock: match row.lock_type {
            0 => Lock::None,
            1 => Lock::Absolute { days: row.days },
            _ => Lock::SinceParent { days: row.days },
        },
    }
}

/// Slip 5: "1 gives 2, 2 gives 1, anything else 0".
pub fn offset(blocks_per_day: u16) -> u8 {
    match blocks_per_day {
        1 => 2,
        2 => 1,
        _ => 0,
    }
}

/// Document 01: "Offset is 3 less the blocks per day, never below zero."
pub fn offset_in_document_01(blocks_per_day: u16) -> u8 {
    3u16.saturating_sub(blocks_per_day) as u8
}

/// The SASwap sheet for a number of blocks per day, row by row from the table.
pub fn saswap(blocks_per_day: u16) -> Vec<u8> {
    let offset = offset(blocks_per_day);
    let none = [0, 0];
    // Parent, payees, needs, veil; lock type, days.
    let table: [([u8; 4], [u8; 2]); 15] = [
        ([255, 0, 1, 0], none),          // 0 lock_A
        ([255, 0, 2, 0], none),          // 1 lock_B
        ([0, 0, 11, 0], none),           // 2 success
        ([0, 0, 7, 0], [1, offset + 1]), // 3 refund_1
        ([0, 0, 3, 0], [1, offset + 2]), // 4 revoke
        ([4, 0, 7, 0], [2, 1]),          // 5 refund_2
        ([4, 0, 3, 0], [2, 2]),          // 6 timeout
        ([0, 3, 3, 0], none),            // 7 spend_A
        ([1, 3, 12, 1], none),           // 8 spend_B
        ([2, 2, 2, 0], none),            // 9 spend_success
        ([3, 2, 3, 0], none),            // 10 spend_refund_1_bob
        ([3, 1, 1, 0], [2, 1]),          // 11 spend_refund_1_alice
        ([4, 3, 3, 0], none),            // 12 spend_revoke
        ([5, 1, 1, 0], none),            // 13 spend_refund_2
        ([6, 2, 2, 0], none),            // 14 spend_timeout
    ];
    let mut bytes = vec![15, 4, 12, 5, 10];
    bytes.extend(table.iter().flat_map(|(first, _)| first));
    bytes.extend(table.iter().flat_map(|(_, second)| second));
    bytes
}
