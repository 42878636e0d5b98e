//! Slack against the game itself: every position of a game, for one side. Danger: before an outage of k blocks the side can
//! force a payout, and after it no longer. What is found true of the definition is held to every step between positions.

use super::row::LONGEST;
use super::Outlook;
use crate::adversary::{Edge, Fate, Graph};
use crate::attainable::is_without;
use crate::compare::Game;
use crate::model::heights::NEVER;
use crate::model::journal::Course;
use crate::model::position::Position;
use crate::model::sheet::Lock;
use crate::model::{open, step, MINER};
use crate::random::{self, Manner, Random};
use std::collections::BTreeMap;

/// The outages, in blocks: it is asked for each of them, and for none, whether a payout lasts.
pub const OUTAGES: [usize; 3] = [1, 2, 3];
const ASKED: usize = 4;

/// The sorts of what is found.
#[derive(Clone, Copy, Debug, PartialEq, Eq, PartialOrd, Ord)]
pub enum Sort {
    Questions,
    Dangers,
    /// Dangers over which a payout is said to last.
    Missed,
    /// It is not said to last, and it is no danger, where the side and the miner alone can bring a payout.
    FalseAlarms,
    /// Slack, and no steps of the side and the miner bring a payout.
    Hopeless,
    /// Slack where the others can bring the side to a position without hope, whatever it does.
    GivenUp,
    /// One of these before transaction 0 is confirmed, where no empty block can be mined: what is locked may never come.
    Unmined,
    /// It lasts for some blocks and not for fewer.
    Rising,
    /// Steps of the others after which less lasts than what is left of the outage.
    Lost,
    /// Slack 0.
    Zero,
    /// Slack 0, and no step of the side's brings more.
    Stuck,
    /// Slack 0, and what is counted on has its parent in the block or the pool alone.
    Below,
    /// Slack 0, its parent is confirmed or none, and neither its send nor its hand-in is open.
    Shut,
    /// One of them is open, and after none of the open ones the slack is more.
    Short,
    /// Both are open, and after the hand-in alone the slack is more.
    PoolShort,
    /// Both are open, and after the send alone the slack is more.
    HandShort,
}

use Sort::*;

/// The sorts that stand against the definition: nothing of them may be found.
pub const AGAINST: [Sort; 5] = [Missed, Hopeless, GivenUp, Rising, Lost];

/// What is counted, and the first position of each sort: its number, and whether it is the graph's of the side.
#[derive(Clone, Debug, Default)]
pub struct Counts {
    pub counts: BTreeMap<Sort, usize>,
    pub first: BTreeMap<Sort, (u8, usize)>,
}

impl Counts {
    fn add(&mut self, sort: Sort, found: bool, side: u8, n: usize) {
        if found {
            *self.counts.entry(sort).or_default() += 1;
            self.first.entry(sort).or_insert((side, n));
        }
    }

    pub fn of(&self, sort: Sort) -> usize {
        self.counts.get(&sort).copied().unwrap_or(0)
    }

    /// The counts joined.
    pub fn join(&mut self, other: &Counts) {
        for (&sort, count) in &other.counts {
            *self.counts.entry(sort).or_default() += count;
        }
    }

    /// How many stand against the definition.
    pub fn against(&self) -> usize {
        AGAINST.iter().map(|&sort| self.of(sort)).sum()
    }
}

/// The definition, or what it says of the position as it stands alone.
#[derive(Clone, Copy)]
pub enum Form {
    Whole,
    Plain,
}

/// For each position, whether a payout of the side lasts over an outage of 0, 1, .. blocks.
fn lasting(game: &Game, graph: &Graph, side: u8, form: Form) -> Vec<[bool; ASKED]> {
    let mut lasting = vec![[false; ASKED]; graph.edges.len()];
    for (position, number) in graph.numbered() {
        let outlook = Outlook::of(&game.sheet, &game.setup, position, side);
        lasting[number] = std::array::from_fn(|blocks| match form {
            Form::Whole => outlook.lasts(blocks as u32),
            Form::Plain => outlook.stands.kept(blocks as u32),
        });
    }
    lasting
}

/// What the game itself says of a side.
pub struct Exact {
    pub fate: Fate,
    /// The blocks that the side and the miner alone need to a payout.
    pub alone: Vec<Option<u32>>,
}

impl Exact {
    pub fn of(graph: &Graph, side: u8) -> Exact {
        let paid: Vec<bool> = graph.paid.iter().map(|m| m >> side & 1 == 1).collect();
        Exact {
            fate: Fate::of(graph, side),
            alone: graph.blocks_to(&paid, &[side, MINER]),
        }
    }

    /// Danger, or given up, or the side and the miner alone bring no payout: before that none is secured.
    pub fn ends(&self, n: usize, blocks: u32) -> bool {
        let near = self.fate.blocks[n].is_some_and(|needed| needed <= blocks);
        near || self.fate.given_up[n] || self.alone[n].is_none()
    }

    /// The longest outage that does not end so, up to 10,000 blocks; never where one of no block does.
    pub fn slack(&self, n: usize) -> u32 {
        let needed = self.fate.blocks[n].unwrap_or(LONGEST + 1);
        match self.ends(n, 0) {
            true => NEVER,
            false => needed - 1,
        }
    }
}

/// Every position of a game, for one side.
pub fn counts(game: &Game, graph: &Graph, side: u8, form: Form) -> Counts {
    let mut counts = Counts::default();
    let exact = Exact::of(graph, side);
    let Exact { fate, alone } = &exact;
    let dangers = OUTAGES.map(|blocks| fate.dangers(graph, side, 0, blocks as u32));
    let lasts = lasting(game, graph, side, form);
    for (position, n) in graph.numbered() {
        let mut add = |sort, found| counts.add(sort, found, side, n);
        for (blocks, dangers) in OUTAGES.iter().zip(&dangers) {
            let (lasts, danger) = (lasts[n][*blocks], dangers[n]);
            let safe = !danger && !fate.given_up[n] && alone[n].is_some();
            add(Questions, true);
            add(Dangers, danger);
            add(Missed, lasts && danger);
            add(FalseAlarms, !lasts && safe);
        }
        let mines = position.is_confirmed(0);
        let hopeless = lasts[n][0] && alone[n].is_none();
        let given_up = lasts[n][0] && fate.given_up[n];
        add(Hopeless, hopeless && mines);
        add(GivenUp, given_up && mines);
        add(Unmined, (hopeless || given_up) && !mines);
        add(Rising, lasts[n].windows(2).any(|pair| pair[1] && !pair[0]));
        let (ours, theirs): (Vec<&Edge>, Vec<&Edge>) =
            graph.edges[n].iter().partition(|e| e.party == side);
        for edge in theirs {
            let mined = usize::from(edge.mines);
            let less = |k: usize| lasts[n][k] && !lasts[edge.to][k - mined];
            add(Lost, (mined..ASKED).any(less));
        }
        if lasts[n][0] && !lasts[n][1] {
            add(Zero, true);
            add(Stuck, !ours.iter().any(|edge| lasts[edge.to][1]));
            if let (Form::Whole, Some(sort)) = (form, idle(game, position, side)) {
                add(sort, true);
            }
        }
    }
    counts
}

/// Where the slack is 0: in which way the send or hand-in of what is counted on does not bring more, if in any.
fn idle(game: &Game, position: &Position, side: u8) -> Option<Sort> {
    let (sheet, setup) = (&game.sheet, &game.setup);
    let outlook = Outlook::of(sheet, setup, position, side);
    let (t, destination) = outlook.counted_on(0).expect("slack 0 counts on something");
    let parent = sheet.transaction(t).parent;
    if !parent.is_none_or(|q| position.is_confirmed(q)) {
        return Some(Below);
    }
    let after = [3, 4].map(|kind| {
        let bytes = [kind, side, t, destination];
        (step::refusal(sheet, setup, position, &bytes) == 0).then(|| {
            let step = step::decode(sheet, setup, &bytes).expect("an open step");
            let mut next = position.clone();
            step::effect(sheet, setup, &mut next, &step);
            Outlook::of(sheet, setup, &next, side).lasts(1)
        })
    });
    match after {
        [None, None] => Some(Shut),
        [Some(false), Some(true)] => Some(PoolShort),
        [Some(true), Some(false)] => Some(HandShort),
        _ => (!after.contains(&Some(true))).then_some(Short),
    }
}

/// A walk over open steps of any game, for every party: what is found of each position, and of each open step of the others. The
/// journal of the first of each sort.
pub fn walk(
    random: &mut Random,
    game: &Game,
    turns: usize,
) -> (Counts, BTreeMap<Sort, (u8, Vec<[u8; 4]>)>) {
    let (sheet, setup) = (&game.sheet, &game.setup);
    let (mut counts, mut journals) = (Counts::default(), BTreeMap::new());
    let manner = Manner {
        wrong: 0,
        ..random::manner(random, 30)
    };
    let mut course = Course::fresh(sheet);
    for n in 0..turns {
        random::more(random, sheet, setup, &mut course, &manner, 300);
        let position = &course.position;
        for &side in sheet.parties {
            let outlook = Outlook::of(sheet, setup, position, side);
            let slack = outlook.slack();
            let mut found = vec![Questions];
            if slack != NEVER && (0..3.min(slack)).any(|k| !outlook.lasts(k)) {
                found.push(Rising);
            }
            if slack == 0 {
                found.push(Zero);
                found.extend(idle(game, position, side));
            }
            if slack != NEVER {
                let steps = open::steps(sheet, setup, position);
                for bytes in steps.iter().filter(|bytes| is_without(side, bytes)) {
                    let step = step::decode(sheet, setup, bytes).expect("an open step");
                    let mut next = position.clone();
                    step::effect(sheet, setup, &mut next, &step);
                    let mined = next.mined - position.mined;
                    let after = Outlook::of(sheet, setup, &next, side);
                    if mined <= slack && !after.lasts(slack - mined) {
                        found.push(Lost);
                    }
                }
            }
            for sort in found {
                counts.add(sort, true, side, n);
                journals
                    .entry(sort)
                    .or_insert_with(|| (side, course.accepted.clone()));
            }
        }
    }
    (counts, journals)
}

/// A random sheet of two or three with few transactions, at 1 block per day. Before transaction 0 is confirmed no empty block can
/// be mined, so a locked one may never come: it has no lock here.
pub fn small_game(random: &mut Random) -> Option<Game> {
    let (n, s) = (random.between(3, 5) as u8, random.between(1, 3) as u8);
    let shape = random.pick(&random::SHAPES);
    let sheet = match random.percent(30) {
        true => random::ring_of(random, n, s, shape),
        false => random::sheet_of(random, n, s, shape),
    };
    let game = Game::new((sheet, random::setup_of(random, 1, 0)));
    (game.sheet.transaction(0).lock == Lock::None).then_some(game)
}

/// A shortest journal to a position of the graph, by its number.
pub fn journal(game: &Game, graph: &Graph, to: usize) -> Vec<[u8; 4]> {
    let mut from: Vec<Option<(usize, usize)>> = vec![None; graph.edges.len()];
    let mut left = vec![0];
    let mut next = 0;
    while next < left.len() {
        let n = left[next];
        next += 1;
        for (i, edge) in graph.edges[n].iter().enumerate() {
            if edge.to != 0 && from[edge.to].is_none() {
                from[edge.to] = Some((n, i));
                left.push(edge.to);
            }
        }
    }
    let positions: BTreeMap<usize, &Position> = graph.numbered().map(|(p, n)| (n, p)).collect();
    let mut steps = Vec::new();
    let mut at = to;
    while let Some((n, i)) = from[at] {
        steps.push(open::steps(&game.sheet, &game.setup, positions[&n])[i]);
        at = n;
    }
    steps.reverse();
    steps
}
