//! Everything that can happen to a side: all positions of a game and the steps between them, as a graph.

use crate::compare::Game;
use crate::model::position::Position;
use crate::model::setup::Setup;
use crate::model::sheet::Lock;
use crate::model::{open, report, step};
use std::collections::HashMap;

/// A step from one position to another.
#[derive(Clone, Copy, Debug, PartialEq, Eq)]
pub struct Edge {
    pub party: u8,
    /// Whether it mines a block.
    pub mines: bool,
    pub to: usize,
}

/// All positions that a game can come to, folded, by number; the fresh one is 0.
pub struct Graph {
    numbers: HashMap<Position, usize>,
    /// The steps from each position.
    pub edges: Vec<Vec<Edge>>,
    /// The parties that hold a coin there, as a mask.
    pub paid: Vec<u8>,
    /// Those who can make a step.
    pub actors: Vec<u8>,
    fold: Fold,
}

/// How heights are folded.
#[derive(Clone, Copy, Debug)]
struct Fold {
    /// The blocks after which they are.
    last: u32,
    /// The longest lock since a parent.
    longest: u32,
    /// Blocks up to this one stay as they are.
    kept: u32,
}

impl Fold {
    /// No absolute lock of a SASwap sheet is above 4 days, none since a parent above 2.
    fn saswap(setup: &Setup) -> Fold {
        let day = setup.blocks_per_day;
        Fold {
            last: 6 * day + 1,
            longest: 2 * day,
            kept: 0,
        }
    }

    /// Of any sheet: the order of locks since a parent among absolute ones stays as it is.
    fn any(game: &Game) -> Fold {
        let days = |absolute: bool| {
            let locks = game.sheet.transactions.iter().map(|t| t.lock);
            let days = locks.map(|lock| match lock {
                Lock::Absolute { days } if absolute => days,
                Lock::SinceParent { days } if !absolute => days,
                _ => 0,
            });
            u32::from(days.max().unwrap_or(0)) * game.setup.blocks_per_day
        };
        let (kept, longest) = (days(true), days(false));
        Fold {
            last: kept + longest + 1,
            longest,
            kept,
        }
    }

    /// The position with its heights moved down, where every absolute lock is passed: what is further behind than the
    /// longest lock since a parent no longer matters.
    fn folded(&self, mut position: Position) -> Position {
        if position.mined > self.last {
            let down = position.mined - self.last;
            position.mined = self.last;
            for confirmation in position.confirmed.values_mut() {
                if confirmation.block > self.kept {
                    let block = confirmation.block.saturating_sub(down);
                    confirmation.block = block.max(self.last - self.longest);
                }
            }
        }
        position
    }
}

impl Graph {
    /// The graph of a SASwap game.
    pub fn of(game: &Game) -> Graph {
        Graph::within(game, Fold::saswap(&game.setup), usize::MAX).expect("any number")
    }

    /// The graph of any game with at most so many positions.
    pub fn of_any(game: &Game, most: usize) -> Option<Graph> {
        Graph::within(game, Fold::any(game), most)
    }

    fn within(game: &Game, fold: Fold, most: usize) -> Option<Graph> {
        let fresh = Position::fresh(&game.sheet);
        let mut graph = Graph {
            numbers: HashMap::from([(fresh.clone(), 0)]),
            edges: Vec::new(),
            paid: Vec::new(),
            actors: open::actors(&game.sheet),
            fold,
        };
        let mut left = vec![fresh];
        while graph.edges.len() < left.len() {
            let position = left[graph.edges.len()].clone();
            let edges = graph.steps(game, &position, &mut left);
            graph.edges.push(edges);
            graph.paid.push(paid(game, &position));
            if left.len() > most {
                return None;
            }
        }
        Some(graph)
    }

    /// The steps from a position; new positions get the next numbers.
    fn steps(&mut self, game: &Game, position: &Position, left: &mut Vec<Position>) -> Vec<Edge> {
        let (sheet, setup) = (&game.sheet, &game.setup);
        let mut edges = Vec::new();
        for bytes in open::steps(sheet, setup, position) {
            let step = step::decode(sheet, setup, &bytes).expect("an open step");
            let mut next = position.clone();
            step::effect(sheet, setup, &mut next, &step);
            let mines = next.mined > position.mined;
            let next = self.fold.folded(next);
            let to = *self.numbers.entry(next.clone()).or_insert(left.len());
            if to == left.len() {
                left.push(next);
            }
            let party = step.party;
            edges.push(Edge { party, mines, to });
        }
        edges
    }

    /// All the positions.
    pub fn positions(&self) -> impl Iterator<Item = &Position> {
        self.numbers.keys()
    }

    /// All the positions with their numbers.
    pub fn numbered(&self) -> impl Iterator<Item = (&Position, usize)> {
        self.numbers
            .iter()
            .map(|(position, &number)| (position, number))
    }

    /// Those who can make a step beside a side.
    pub fn others(&self, side: u8) -> Vec<u8> {
        let others = self.actors.iter().copied();
        others.filter(|&actor| actor != side).collect()
    }

    /// The number of a position.
    pub fn number(&self, position: &Position) -> usize {
        self.numbers[&self.fold.folded(position.clone())]
    }

    /// For each position the least number of blocks that these parties alone mine to reach one of the targets.
    pub fn blocks_to(&self, targets: &[bool], parties: &[u8]) -> Vec<Option<u32>> {
        let mut blocks: Vec<Option<u32>> = targets.iter().map(|&t| t.then_some(0)).collect();
        let mut changed = true;
        while changed {
            changed = false;
            for from in (0..self.edges.len()).rev() {
                let edges = self.edges[from].iter();
                let taken = edges.filter(|edge| parties.contains(&edge.party));
                let through = taken.filter_map(|e| Some(blocks[e.to]? + u32::from(e.mines)));
                let least = through.chain(blocks[from]).min();
                changed |= least != blocks[from];
                blocks[from] = least;
            }
        }
        blocks
    }
}

/// The parties that hold a coin.
fn paid(game: &Game, position: &Position) -> u8 {
    let holders = report::holders_from_position(&game.sheet, position);
    let payouts = report::payouts(&holders);
    payouts.values().fold(0, |mask, &party| mask | 1 << party)
}

/// What can become of a side.
pub struct Fate {
    /// The positions that are given up: the others can bring the side to a lost one, whatever it does. Lost: no steps of
    /// anyone bring it a payout any more. In all others the side can force a payout, as far as the miner does not put it
    /// off for ever.
    pub given_up: Vec<bool>,
    /// The blocks that the others need from each position, while the side stands still, to one that is given up.
    pub blocks: Vec<Option<u32>>,
}

impl Fate {
    pub fn of(graph: &Graph, side: u8) -> Fate {
        let paid: Vec<bool> = graph
            .paid
            .iter()
            .map(|mask| mask >> side & 1 == 1)
            .collect();
        let hope = graph.blocks_to(&paid, &graph.actors);
        let lost = hope.iter().map(Option::is_none).collect();
        let given_up = forced(graph, side, lost, None);
        let blocks = graph.blocks_to(&given_up, &graph.others(side));
        Fate { given_up, blocks }
    }

    /// The positions that an outage from now on can bring to one that is given up.
    fn ends(&self, outage: u32) -> Vec<bool> {
        let near = |blocks: &Option<u32>| blocks.is_some_and(|blocks| blocks <= outage);
        self.blocks.iter().map(near).collect()
    }

    /// Danger: we could have forced a payout before, and cannot after. The positions of this sort, for an outage that
    /// begins after so many blocks in which the side can act.
    pub fn dangers(&self, graph: &Graph, side: u8, wait: u32, outage: u32) -> Vec<bool> {
        let mut ends = self.ends(outage);
        for _ in 0..wait {
            ends = forced(graph, side, self.given_up.clone(), Some(&ends));
        }
        let both = ends.iter().zip(&self.given_up);
        both.map(|(end, given_up)| *end && !given_up).collect()
    }
}

/// The positions from which the others can bring the side to one of these, whatever it does: one of these, or a step of
/// theirs leads to such a position and no step of the side to any other. Where `mined` is given, it tells of positions
/// right after the next block.
fn forced(graph: &Graph, side: u8, mut to: Vec<bool>, mined: Option<&[bool]>) -> Vec<bool> {
    let mut changed = true;
    while changed {
        changed = false;
        for position in (0..to.len()).rev().filter(|&p| !to[p]).collect::<Vec<_>>() {
            let is_in = |e: &Edge| match mined {
                Some(after) if e.mines => after[e.to],
                _ => to[e.to],
            };
            let edges = &graph.edges[position];
            let pushed = edges.iter().any(|e| e.party != side && is_in(e));
            let escapes = edges.iter().any(|e| e.party == side && !is_in(e));
            to[position] = pushed && !escapes;
            changed |= to[position];
        }
    }
    to
}
