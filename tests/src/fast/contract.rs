//! A sheet and a setup: the checks 1 to 10 and 32, and what is worked out from both once.

use super::{require, Checked, ALICE, BOB, CAROL, MINER, MOST, NUMBERS};

/// The parent byte of a coin's opening.
const OPENING: u8 = 255;
/// "A first byte of 128 or more is 128 + n and announces a sheet with a third start mask".
const THREE: u8 = 128;

/// The number of transactions and the parties of a sheet that is not empty.
fn head(sheet: &[u8]) -> (u8, &'static [u8]) {
    match sheet[0] {
        first @ THREE.. => (first - THREE, &[ALICE, BOB, CAROL]),
        first => (first, &[ALICE, BOB]),
    }
}

/// The bytes before the two arrays: sizes, secrets and a mask for each party.
fn head_bytes(parties: &[u8]) -> usize {
    3 + parties.len()
}

/// The SASwap sheet for 3 and more blocks per day: offset 0.
const SASWAP: [u8; 95] = [
    15, 4, 12, 5, 10, // sizes and masks
    255, 0, 1, 0, 255, 0, 2, 0, // lock_A, lock_B
    0, 0, 11, 0, 0, 0, 7, 0, 0, 0, 3, 0, // success, refund_1, revoke
    4, 0, 7, 0, 4, 0, 3, 0, // refund_2, timeout
    0, 3, 3, 0, 1, 3, 12, 1, // spend_A, spend_B
    2, 2, 2, 0, 3, 2, 3, 0, 3, 1, 1,
    0, // spend_success, spend_refund_1_bob, spend_refund_1_alice
    4, 3, 3, 0, 5, 1, 1, 0, 6, 2, 2, 0, // spend_revoke, spend_refund_2, spend_timeout
    0, 0, 0, 0, 0, 0, 1, 1, 1, 2, 2, 1, 2, 2, // locks of the contract transactions
    0, 0, 0, 0, 0, 0, 0, 0, 2, 1, 0, 0, 0, 0, 0, 0, // locks of the paying ones
];
/// The places of the days of refund_1 and revoke in it.
const OFFSET_DAYS: [usize; 2] = [72, 74];

/// "conduct (0 open, 1 loose, 2 careful)".
#[derive(Clone, Copy, PartialEq, Eq)]
pub enum Conduct {
    Open,
    Loose,
    Careful,
}

/// The lock of a transaction, in blocks.
#[derive(Clone, Copy)]
pub enum Lock {
    None,
    Absolute(u32),
    SinceParent(u32),
}

/// One transaction of a sheet.
#[derive(Clone, Copy)]
pub struct Transaction {
    /// The parent's number; an opening's is out of range.
    pub parent: usize,
    /// The parent as a mask, empty for an opening.
    pub parent_mask: u32,
    /// "Rivals: transactions of one parent, itself included; an opening rivals only itself."
    pub rivals: u32,
    /// "A transaction's line is itself and the line of its parent."
    pub line: u32,
    pub lock: Lock,
    pub payees: u8,
    /// The required signatures.
    pub needs: u8,
    /// What becomes shared with it: "Its required signatures become shared, none if veiled."
    pub exposes: u8,
}

const NO_TRANSACTION: Transaction = Transaction {
    parent: OPENING as usize,
    parent_mask: 0,
    rivals: 0,
    line: 0,
    lock: Lock::None,
    payees: 0,
    needs: 0,
    exposes: 0,
};

/// A sheet and a setup that passed the checks 1 to 10 and 32.
pub struct Contract {
    pub count: usize,
    pub signatures: u8,
    pub secrets: u8,
    pub parties: &'static [u8],
    pub held: [u8; NUMBERS],
    pub transactions: [Transaction; MOST],
    /// The contract transactions.
    pub contracts: u32,
    /// The transactions that pay each party.
    pub pays: [u32; NUMBERS],
    pub conduct: Conduct,
    pub stealth: bool,
}

/// The bytes of one transaction in the two arrays.
struct Row<'a> {
    first: &'a [u8],
    lock: &'a [u8],
}

/// The rows of a sheet whose length is right.
fn rows(sheet: &[u8]) -> impl Iterator<Item = (usize, Row<'_>)> {
    let (n, parties) = head(sheet);
    let (first, second) = sheet[head_bytes(parties)..].split_at(4 * usize::from(n));
    let pairs = first.chunks_exact(4).zip(second.chunks_exact(2));
    pairs.map(|(first, lock)| Row { first, lock }).enumerate()
}

/// The transaction of this byte as a mask; empty for a byte out of range.
fn mask_of(byte: u8) -> u32 {
    1u32.checked_shl(u32::from(byte)).unwrap_or(0)
}

/// The checks 1 to 8 of a sheet.
pub fn check_sheet(sheet: &[u8]) -> Checked {
    require(!sheet.is_empty(), 1)?;
    let (n, parties) = head(sheet);
    let head = head_bytes(parties);
    require(sheet.len() >= head, 1)?;
    let s = sheet[1];
    require((1..=MOST as u8).contains(&n), 2)?;
    require((1..=8).contains(&s), 3)?;
    let beyond = !(255u8 >> (8 - s));
    require(sheet[2..head].iter().all(|mask| mask & beyond == 0), 3)?;
    require(sheet.len() == head + 6 * usize::from(n), 4)?;
    let limits = Limits {
        everybody: (1 << parties.len()) - 1,
        beyond,
        parents: rows(sheet).fold(0, |all, (_, row)| all | mask_of(row.first[0])),
    };
    let failures = rows(sheet).filter_map(|(t, row)| check_row(t, &row, &limits).err());
    failures.min().map_or(Ok(()), Err)
}

/// What the rows are held to: the payees byte that names every party, the signatures beyond s, and the parents.
struct Limits {
    everybody: u8,
    beyond: u8,
    parents: u32,
}

/// The checks 5 to 8 of one transaction. The least failure of all rows is the sheet's.
fn check_row(t: usize, row: &Row, limits: &Limits) -> Checked {
    let [parent, payees, needs, veil] = row.first[..] else {
        unreachable!("a row of the first array has four bytes")
    };
    require(parent == OPENING || usize::from(parent) < t, 5)?;
    require(
        payees <= limits.everybody && needs != 0 && needs & limits.beyond == 0 && veil <= 1,
        6,
    )?;
    let lock_right = match row.lock[0] {
        0 => row.lock[1] == 0,
        1 => row.lock[1] != 0,
        2 => row.lock[1] != 0 && parent != OPENING,
        _ => false,
    };
    require(lock_right, 7)?;
    let has_child = limits.parents >> t & 1 == 1;
    require((payees == 0) == has_child, 8)
}

/// The checks 9, 32 and 10 of a setup: its blocks per day.
fn check_setup(sheet: &[u8], setup: &[u8]) -> Result<u16, u32> {
    let [low, high, conduct, stealth] = setup[..] else {
        return Err(9);
    };
    let per_day = u16::from_le_bytes([low, high]);
    require((1..=1000).contains(&per_day), 9)?;
    let (_, parties) = head(sheet);
    require(parties.len() == 2 || !(1..=2).contains(&conduct), 32)?;
    require(conduct <= 2 && stealth <= 1, 10)?;
    require(conduct == 0 || is_saswap(sheet, per_day), 10)?;
    Ok(per_day)
}

/// "Conduct 1 and 2 take only the SASwap sheet for that number of blocks."
fn is_saswap(sheet: &[u8], per_day: u16) -> bool {
    let mut saswap = SASWAP;
    for place in OFFSET_DAYS {
        saswap[place] += 3u16.saturating_sub(per_day) as u8;
    }
    sheet == saswap
}

impl Contract {
    /// The contract of a sheet and a setup, or their refusal.
    pub fn read(sheet: &[u8], setup: &[u8]) -> Result<Contract, u32> {
        check_sheet(sheet)?;
        let per_day = check_setup(sheet, setup)?;
        let (n, parties) = head(sheet);
        let mut held = [0; NUMBERS];
        for (&party, &mask) in parties.iter().zip(&sheet[3..]) {
            held[usize::from(party)] = mask;
        }
        let mut contract = Contract {
            count: usize::from(n),
            signatures: sheet[1],
            secrets: sheet[2],
            parties,
            held,
            transactions: [NO_TRANSACTION; MOST],
            contracts: 0,
            pays: [0; NUMBERS],
            conduct: match setup[2] {
                0 => Conduct::Open,
                1 => Conduct::Loose,
                _ => Conduct::Careful,
            },
            stealth: setup[3] == 1,
        };
        contract.read_rows(sheet, u32::from(per_day));
        Ok(contract)
    }

    fn read_rows(&mut self, sheet: &[u8], per_day: u32) {
        let mut children = [0; MOST];
        for (t, row) in rows(sheet) {
            let x = transaction(&row, per_day);
            self.note_payees(t, x.payees);
            if let Some(known) = children.get_mut(x.parent) {
                *known |= 1 << t;
            }
            self.transactions[t] = x;
        }
        for t in 0..self.count {
            let parent = self.transactions[t].parent;
            let above = self.transactions.get(parent).map_or(0, |x| x.line);
            let x = &mut self.transactions[t];
            x.rivals = children.get(parent).copied().unwrap_or(1 << t);
            x.line = above | 1 << t;
        }
    }

    fn note_payees(&mut self, t: usize, payees: u8) {
        self.contracts |= u32::from(payees == 0) << t;
        for (bit, &party) in self.parties.iter().enumerate() {
            self.pays[usize::from(party)] |= u32::from(payees >> bit & 1) << t;
        }
    }

    /// Whether a number is one of the parties.
    pub fn is_party(&self, number: u8) -> bool {
        number < MINER || number == CAROL && self.parties.len() == 3
    }

    /// Whether a transaction byte names a transaction of the sheet.
    pub fn has(&self, t: u8) -> bool {
        usize::from(t) < self.count
    }

    pub fn is_contract(&self, t: usize) -> bool {
        self.contracts >> t & 1 == 1
    }
}

/// The transaction of a row, without what depends on others.
fn transaction(row: &Row, per_day: u32) -> Transaction {
    let blocks = u32::from(row.lock[1]) * per_day;
    let needs = row.first[2];
    Transaction {
        parent: usize::from(row.first[0]),
        parent_mask: mask_of(row.first[0]),
        lock: match row.lock[0] {
            0 => Lock::None,
            1 => Lock::Absolute(blocks),
            _ => Lock::SinceParent(blocks),
        },
        payees: row.first[1],
        needs,
        exposes: if row.first[3] == 1 { 0 } else { needs },
        ..NO_TRANSACTION
    }
}
