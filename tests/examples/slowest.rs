//! A search for refused journals that take shrink long: sheets and journals are changed at random, and what takes longer is kept. It
//! begins with the slowest shape known.
//!
//! Usage: cargo run --release --example slowest -- SECONDS [SEED [STEPS [FILE]]], of processor time, with journals of at most so many
//! steps; the slowest goes to FILE, in hexadecimal digits

use std::time::Duration;
use swap_tests::clock::thread_time;
use swap_tests::engine;
use swap_tests::random::{Case, Random, MINE};
use swap_tests::slow::{apart, rivals, since_parent};

/// The most steps of a journal that is shrunk.
const MOST: usize = 1_024;
/// How many of 30 transactions wait, in the shapes that it begins with.
const WAITING: [u8; 3] = [1, 2, 10];

/// A case that is changed: the sheet's head, its rows and locks, and the steps.
#[derive(Clone)]
struct Draft {
    head: Vec<u8>,
    rows: Vec<[u8; 4]>,
    locks: Vec<[u8; 2]>,
    setup: Vec<u8>,
    steps: Vec<[u8; 4]>,
}

impl Draft {
    fn of((sheet, setup, journal): &Case) -> Draft {
        let (count, arrays) = match sheet[0] {
            0..=127 => (sheet[0], 5),
            three => (three - 128, 6),
        };
        let locks = arrays + 4 * usize::from(count);
        Draft {
            head: sheet[..arrays].to_vec(),
            rows: sheet[arrays..locks].as_chunks().0.to_vec(),
            locks: sheet[locks..].as_chunks().0.to_vec(),
            setup: setup.clone(),
            steps: journal.as_chunks().0.to_vec(),
        }
    }

    fn sheet(&self) -> Vec<u8> {
        [
            &self.head,
            self.rows.as_flattened(),
            self.locks.as_flattened(),
        ]
        .concat()
    }

    fn case(&self) -> Case {
        let steps = self.steps.as_flattened().to_vec();
        (self.sheet(), self.setup.clone(), steps)
    }

    fn blocks(&self) -> usize {
        self.steps.iter().filter(|&&step| step == MINE).count()
    }

    /// One field of the sheet or of the setup is another one.
    fn change_sheet(&mut self, random: &mut Random) {
        let t = random.below(self.rows.len());
        match random.below(8) {
            0 | 1 => {
                self.locks[t] = match random.below(4) {
                    0 => [0, 0],
                    1 => [1, random.pick(&[1, 2, 5, 20, 100, 200, 254, 255])],
                    2 => [1, random.between(1, 255) as u8],
                    _ => [2, random.between(1, 3) as u8],
                }
            }
            2 | 3 => self.rows[t][2] ^= 1 << random.below(usize::from(self.head[1])),
            4 => self.rows[t][3] ^= 1,
            5 => self.rows[t][0] = random.below(t + 1).checked_sub(1).map_or(255, |t| t as u8),
            6 => {
                let mask = random.between(2, self.head.len() - 1);
                self.head[mask] ^= 1 << random.below(usize::from(self.head[1]));
            }
            _ => self.setup[random.pick(&[0, 0, 3])] = random.between(0, 6) as u8,
        }
        // who has a child is a contract
        for t in 0..self.rows.len() {
            let child = self.rows.iter().any(|row| usize::from(row[0]) == t);
            match (child, self.rows[t][1]) {
                (true, _) => self.rows[t][1] = 0,
                (false, 0) => self.rows[t][1] = 1,
                _ => {}
            }
        }
    }

    /// Some steps go, come, or stand elsewhere.
    fn change_steps(&mut self, random: &mut Random) {
        let from = random.below(self.steps.len());
        let count = random
            .pick(&[1, 1, 1, 2, 3, 5, 10])
            .min(self.steps.len() - from);
        let part: Vec<[u8; 4]> = self.steps[from..from + count].to_vec();
        match random.below(6) {
            0 => drop(self.steps.drain(from..from + count)),
            1 => {
                self.steps.drain(from..from + count);
                let to = random.below(self.steps.len() + 1);
                self.steps.splice(to..to, part);
            }
            2 => {
                let to = random.below(self.steps.len() + 1);
                self.steps.splice(to..to, part);
            }
            3 => drop(self.steps.splice(from..from, vec![MINE; count])),
            _ => self.add_open(random, from),
        }
    }

    /// A step that is open after so many, and a block.
    fn add_open(&mut self, random: &mut Random, after: usize) {
        let mut output = [0; 4_096];
        let journal = self.steps[..after].as_flattened();
        let answer = engine::list(&self.sheet(), &self.setup, journal, &mut output);
        if answer >> 16 == 0 && answer > 0 {
            let at = 4 * random.below(answer as usize);
            let step = output[at..at + 4].try_into().expect("four bytes");
            let blocks = random.below(2);
            self.steps.splice(after..after, vec![MINE; blocks]);
            self.steps.insert(after, step);
        }
    }

    /// As many blocks more or less, in the longest row of them, as make the journal this long.
    fn fit(&mut self, steps: usize) {
        let mut longest = 0..0;
        let mut from = 0;
        for row in self.steps.chunk_by(|a, b| (*a == MINE) == (*b == MINE)) {
            if row[0] == MINE && row.len() > longest.len() {
                longest = from..from + row.len();
            }
            from += row.len();
        }
        let blocks = (longest.len() + steps).saturating_sub(self.steps.len());
        self.steps.splice(longest, vec![MINE; blocks]);
    }

    /// Without the steps before the last one that are refused; none where too many are, or the last one is not.
    fn repaired(mut self) -> Option<Draft> {
        let (sheet, setup) = (self.sheet(), self.setup.clone());
        for _ in 0..40 {
            let answer = engine::run(&sheet, &setup, self.steps.as_flattened());
            let accepted = (answer & 0xffff) as usize;
            match answer >> 16 {
                0 => self.steps.push(*self.steps.last()?),
                11.. if accepted + 1 == self.steps.len() => return Some(self),
                11.. => drop(self.steps.remove(accepted)),
                _ => return None,
            }
        }
        None
    }

    /// Another case near this one. A lock at the last of the blocks stays there.
    fn changed(&self, random: &mut Random, most: usize) -> Option<Draft> {
        let mut draft = self.clone();
        for _ in 0..random.pick(&[1, 1, 2, 3]) {
            match random.percent(40) {
                true => draft.change_sheet(random),
                false => draft.change_steps(random),
            }
        }
        draft.fit(most);
        let day = |draft: &Draft| usize::from(draft.setup[0]).max(1);
        let (before, now) = (self.blocks() / day(self), draft.blocks() / day(&draft));
        for lock in &mut draft.locks {
            if lock[0] == 1 && before.abs_diff(usize::from(lock[1])) <= 1 {
                lock[1] = now.clamp(1, 255) as u8;
            }
        }
        draft.repaired().filter(|draft| draft.steps.len() <= most)
    }
}

/// The processor time of one call; none where it is refused.
fn time((sheet, setup, journal): &Case) -> Duration {
    let mut output = [0; 4 * MOST];
    let start = thread_time();
    let answer = engine::shrink(sheet, setup, journal, &mut output);
    match answer >> 16 {
        0 => thread_time() - start,
        _ => Duration::ZERO,
    }
}

/// A case with the least time that it was seen to take.
#[derive(Clone)]
struct Timed {
    draft: Draft,
    case: Case,
    took: Duration,
}

impl Timed {
    fn new(draft: Draft) -> Timed {
        let case = draft.case();
        let took = time(&case);
        Timed { draft, case, took }
    }

    fn again(&mut self) {
        self.took = self.took.min(time(&self.case));
    }
}

/// The cases that are kept, the slowest first.
struct Kept(Vec<Timed>);

impl Kept {
    /// In place of the one at this place, if it takes longer; both are timed in turn.
    fn rival(&mut self, at: usize, mut other: Timed) -> bool {
        let mine = &mut self.0[at];
        for _ in 0..4 {
            if other.took <= mine.took {
                return false;
            }
            other.again();
            mine.again();
        }
        *mine = other;
        true
    }

    fn slowest(&self) -> &Timed {
        self.0
            .iter()
            .max_by_key(|timed| timed.took)
            .expect("some are kept")
    }
}

fn hex(bytes: &[u8]) -> String {
    bytes.iter().map(|b| format!("{b:02x}")).collect()
}

fn main() -> std::io::Result<()> {
    let words: Vec<String> = std::env::args().skip(1).collect();
    let number = |at: usize| words.get(at).and_then(|word| word.parse().ok());
    let most = Duration::from_secs(number(0).unwrap_or(60));
    let mut random = Random::new(number(1).unwrap_or(1));
    let steps = number(2).map_or(MOST, |steps| steps as usize);
    let mut begin = WAITING
        .map(|waiting| apart(waiting, 30 - waiting, steps))
        .to_vec();
    begin.extend([rivals(3, 25, steps), since_parent(6)]);
    let begin = begin.iter().map(|case| Timed::new(Draft::of(case)));
    let mut kept = Kept(begin.collect());
    let mut tried = 0;
    say(&kept, tried, &words)?;
    while thread_time() < most {
        let at = random.below(kept.0.len());
        if let Some(draft) = kept.0[at].draft.changed(&mut random, steps) {
            tried += 1;
            if kept.rival(at, Timed::new(draft)) {
                say(&kept, tried, &words)?;
            }
        }
    }
    for timed in &mut kept.0 {
        (0..15).for_each(|_| timed.again());
    }
    say(&kept, tried, &words)
}

/// A line of what was found, and the slowest to its file.
fn say(kept: &Kept, tried: usize, words: &[String]) -> std::io::Result<()> {
    let slowest = kept.slowest();
    let (took, spent) = (slowest.took.as_secs_f64(), thread_time().as_secs_f64());
    println!("{:.1} ms after {spent:.0} s, {tried} tried", took * 1e3);
    let (sheet, setup, journal) = &slowest.case;
    match words.get(3) {
        Some(file) => std::fs::write(
            file,
            [sheet, setup, journal].map(|bytes| hex(bytes)).join("\n"),
        ),
        None => Ok(()),
    }
}
