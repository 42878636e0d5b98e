//! Refused journals that take shrink many rounds.

use crate::random::{Case, MINE};

/// A transaction that is locked for so many blocks is sent once they are mined, and again, which is refused: no step of these can
/// go. Before the blocks a chain of so many transactions is sent, of which each round can drop the last one only.
pub fn slow(chain: u8, blocks: u16) -> Case {
    let mut rows = vec![[255, 0, 1, 0], [0, 3, 1, 0]];
    rows.extend((0..chain).map(|k| match k {
        0 => [255, if chain == 1 { 3 } else { 0 }, 1, 0],
        k => [k + 1, if k + 1 == chain { 3 } else { 0 }, 1, 0],
    }));
    let mut locks = vec![[0, 0]; rows.len()];
    locks[1] = [1, 1];
    let mut sheet = vec![rows.len() as u8, 1, 0, 1, 1];
    sheet.extend(rows.concat());
    sheet.extend(locks.concat());
    let mut journal = vec![[3, 0, 0, 2], [5, 2, 0, 2], MINE];
    journal.extend((0..chain).map(|k| [3, 0, k + 2, if k + 1 == chain { 0 } else { 2 }]));
    journal.extend(vec![MINE; usize::from(blocks) - 1]);
    journal.extend([[3, 0, 1, 0]; 2]);
    let [low, high] = blocks.to_le_bytes();
    (sheet, vec![low, high, 0, 0], journal.concat())
}

/// The blocks of a day in the journals below.
const DAY: usize = 4;
/// The parties by their numbers in a step, and the contract as a destination.
const ALICE: u8 = 0;
const BOB: u8 = 1;
const CAROL: u8 = 3;
const CONTRACT: u8 = 2;
/// The signatures on a sheet of three, as masks: the parties' own, Alice's secret, and those that are given.
const BOBS: u8 = 1;
const CAROLS: u8 = 2;
const ALICES: u8 = 4;
const SECRET: u8 = 8;
const GIVEN: u8 = 240;

/// A case in the making: the rows of a sheet, and steps.
#[derive(Default)]
struct Draft {
    rows: Vec<[u8; 4]>,
    locks: Vec<[u8; 2]>,
    journal: Vec<[u8; 4]>,
}

impl Draft {
    /// One transaction more: its number.
    fn add(&mut self, parent: u8, payees: u8, needs: u8, lock: [u8; 2]) -> u8 {
        self.rows.push([parent, payees, needs, 0]);
        self.locks.push(lock);
        self.rows.len() as u8 - 1
    }

    /// Sends a transaction.
    fn send(&mut self, t: u8, to: u8) {
        self.journal.push([3, 0, t, to]);
    }

    /// Sends a transaction, includes it, and mines so many blocks.
    fn confirm(&mut self, t: u8, to: u8, blocks: usize) {
        self.send(t, to);
        self.journal.push([5, 2, t, 2]);
        self.journal.extend(vec![MINE; blocks]);
    }

    /// A chain of so many transactions, each but the first locked for a day since its parent, and each confirmed, with so many
    /// blocks from one to the next. Each round can drop a step or two at its end.
    fn chain(&mut self, count: u8, blocks: usize) {
        let mut parent = 255;
        for left in (0..count).rev() {
            let payees = if left == 0 { 3 } else { 0 };
            let lock = if parent == 255 { [0, 0] } else { [2, 1] };
            parent = self.add(parent, payees, 1, lock);
            self.confirm(parent, if left == 0 { 0 } else { 2 }, blocks);
        }
    }

    /// What two parties share for a transaction, each before a block.
    fn share(&mut self, t: u8, to: u8, by: [u8; 2]) {
        for party in by {
            self.journal.extend([[1, party, t, to], MINE]);
        }
    }

    /// Carol gives signatures to Bob and he to Alice, each before a block.
    fn give(&mut self) {
        for i in (0..8).filter(|i| GIVEN >> i & 1 == 1) {
            let steps = [[2, CAROL, i, BOB], MINE, [2, BOB, i, ALICE], MINE];
            self.journal.extend(steps);
        }
    }

    /// A chain of so many, for which Bob and Carol share: Alice's sends, each before a block. They wait in the pool, their locks are
    /// reached, and the last exposes the secret. With rivals each but the first has one whose lock is far.
    fn wait(&mut self, count: u8, rivals: bool) -> Vec<[u8; 4]> {
        let mut sent = vec![];
        let mut parent = 255;
        for left in (0..count).rev() {
            let (payees, more, to) = if left == 0 {
                (1, SECRET, ALICE)
            } else {
                (0, 0, CONTRACT)
            };
            let up = parent;
            parent = self.add(up, payees, BOBS | CAROLS | more, [1, 1]);
            if rivals && up != 255 {
                self.add(up, 3, BOBS, [1, 255]);
            }
            self.share(parent, to, [BOB, CAROL]);
            sent.extend([[3, ALICE, parent, to], MINE]);
        }
        sent
    }

    /// A chain of so many, for which Bob and Alice share, and which Carol can send once the secret is exposed, each but the first locked
    /// for a day since its parent: the steps that confirm it.
    fn shared_chain(&mut self, count: u8) -> Vec<[u8; 4]> {
        let mut end = vec![];
        let mut parent = 255;
        for left in (0..count).rev() {
            let (payees, to) = if left == 0 { (4, CAROL) } else { (0, CONTRACT) };
            let lock = if parent == 255 { [0, 0] } else { [2, 1] };
            parent = self.add(parent, payees, BOBS | ALICES | SECRET, lock);
            self.share(parent, to, [BOB, ALICE]);
            end.extend([[3, CAROL, parent, to], [5, 2, parent, 2]]);
            end.extend([MINE; DAY + 1]);
        }
        end
    }

    /// Empty blocks up to 1,024 steps, and then the transaction.
    fn end(mut self, locked: u8) -> Case {
        self.journal.resize(1_022, MINE);
        self.finish(locked, vec![0, 1, 0, 1, 1])
    }

    /// Without the last blocks that are not a whole day; then the transaction, which is locked until then, sent twice. The head is
    /// without the number of transactions.
    fn finish(mut self, locked: u8, mut sheet: Vec<u8>) -> Case {
        let blocks = |journal: &[[u8; 4]]| journal.iter().filter(|&&step| step == MINE).count();
        self.journal
            .truncate(self.journal.len() - blocks(&self.journal) % DAY);
        self.locks[usize::from(locked)] = [1, (blocks(&self.journal) / DAY) as u8];
        self.journal.extend([[3, 0, locked, 0]; 2]);
        sheet[0] += self.rows.len() as u8;
        sheet.extend(self.rows.concat());
        sheet.extend(self.locks.concat());
        (sheet, vec![DAY as u8, 0, 0, 0], self.journal.concat())
    }
}

/// A locked transaction and, before it can be sent, a chain of 30 that is locked since the parent, with so many blocks from one to
/// the next.
pub fn since_parent(blocks: usize) -> Case {
    let mut draft = Draft::default();
    let opening = draft.add(255, 0, 1, [0, 0]);
    let locked = draft.add(opening, 3, 1, [0, 0]);
    draft.confirm(opening, 2, 1);
    draft.chain(30, blocks);
    draft.end(locked)
}

/// The same of a locked transaction below a chain of so many that waits in the pool, each with a rival whose lock is far, so that
/// each block asks for the deadlines of all; the rest of 32 transactions are the chain that is locked since the parent.
pub fn waiting(levels: u8, blocks: usize) -> Case {
    let mut draft = Draft::default();
    let first = draft.add(255, 3, 1, [0, 0]);
    draft.confirm(first, 0, 1);
    let mut parent = draft.add(255, 0, 1, [0, 0]);
    draft.send(parent, 2);
    for _ in 0..levels {
        let child = draft.add(parent, 0, 1, [0, 0]);
        draft.add(parent, 3, 1, [1, 255]);
        draft.send(child, 2);
        parent = child;
    }
    let locked = draft.add(parent, 3, 1, [0, 0]);
    draft.chain(32 - draft.rows.len() as u8, blocks);
    draft.end(locked)
}

/// A journal on a sheet of three that takes long in every way known. Gifts and shares at its start keep blocks apart, and dropping
/// one of these or of the blocks is refused only at the end. Each block asks for the deadlines of a chain of `waiting` transactions in
/// the pool. A chain of `going` others needs a secret that the last of these exposes. So each round can drop a step or two of that chain
/// and then of the first. It has at most so many steps, if these have room.
pub fn apart(waiting: u8, going: u8, steps: usize) -> Case {
    waiting_apart(waiting, false, going, steps)
}

/// Either of the two, with or without rivals.
fn waiting_apart(waiting: u8, rivals: bool, going: u8, steps: usize) -> Case {
    let mut draft = Draft::default();
    let first = draft.add(255, 0, BOBS, [0, 0]);
    draft.journal = vec![[3, BOB, first, CONTRACT], [5, 2, first, 2]];
    draft.journal.extend([MINE; DAY]);
    let refused = draft.add(first, 1, BOBS | CAROLS | GIVEN, [0, 0]);
    draft.give();
    draft.share(refused, ALICE, [BOB, CAROL]);
    let sent = draft.wait(waiting, rivals);
    let end = draft.shared_chain(going);
    draft.journal.extend(sent);
    let before = (steps - 2).saturating_sub(end.len());
    draft.journal.resize(before.max(draft.journal.len()), MINE);
    draft.journal.extend(end);
    let masks = [ALICES | SECRET, BOBS, CAROLS | GIVEN];
    draft.finish(refused, [vec![128, 8, SECRET], masks.to_vec()].concat())
}

/// The same, with rivals of those that wait.
pub fn rivals(waiting: u8, going: u8, steps: usize) -> Case {
    waiting_apart(waiting, true, going, steps)
}

/// The one of these that takes longest, of so many transactions.
pub fn slowest(transactions: u8, steps: usize) -> Case {
    let waiting = (transactions - 2) * 3 / 5;
    apart(waiting, transactions - 2 - waiting, steps)
}
