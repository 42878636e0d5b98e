//! Nobody confirms what nobody else can sign: after a list of steps without a party, every transaction that the built
//! library reports as confirmed was confirmed before, or is in the set of those that can come without it. What can come
//! afterwards could come before.

use std::collections::{BTreeMap, BTreeSet};
use swap_tests::attainable::{is_without, Others};
use swap_tests::compare::Game;
use swap_tests::engine;
use swap_tests::model::conduct::REFUND_1;
use swap_tests::model::journal::{self, Course};
use swap_tests::model::report::ROW;
use swap_tests::model::{open, ALICE, BOB, CAROL};
use swap_tests::older;
use swap_tests::random::{self, Random, MINE};
use swap_tests::samples::RING;

/// The turns of a walk, and those of a list without a party.
const TURNS: usize = 30;
const ROW_TURNS: usize = 25;

/// What was found of the lists.
#[derive(Clone, Copy, Debug, Default)]
struct Tally {
    lists: usize,
    /// Transactions that were confirmed on the way, all of them in the set.
    came: usize,
    /// Those of them that the party gets.
    for_the_party: usize,
    /// Transactions that could come no more, neither gone nor in the set.
    ruled_out: usize,
    /// Lists in which the party took steps too, and that confirmed one outside the set.
    by_the_party: usize,
}

/// The confirmed transactions and their destinations, as the built library reports them after these steps.
fn confirmed(game: &Game, steps: &[[u8; 4]]) -> BTreeMap<u8, u8> {
    let (sheet, setup, journal) = game.case(steps);
    let mut output = vec![0; ROW * usize::from(game.sheet.count())];
    assert_eq!(engine::report(&sheet, &setup, &journal, &mut output), 0);
    let rows = (0..).zip(output.chunks_exact(ROW));
    let status = rows.filter(|(_, row)| row[0] & 4 == 4);
    status.map(|(t, row)| (t, row[1])).collect()
}

/// The course after some more steps: open ones, any ones, blocks in a row; all of them such that a test passes.
fn further(
    random: &mut Random,
    game: &Game,
    course: &Course,
    may: impl Fn(&[u8; 4]) -> bool,
) -> Course {
    let mut next = course.clone();
    for _ in 0..random.between(1, ROW_TURNS) {
        let mut steps = open::steps(&game.sheet, &game.setup, &next.position);
        steps.retain(&may);
        let near = random::near_step(random, &game.sheet);
        let step = match random.below(10) {
            0 => MINE,
            1 if may(&near) => near,
            _ if steps.is_empty() => MINE,
            _ => random.pick(&steps),
        };
        next.take(&game.sheet, &game.setup, &step);
    }
    next
}

impl Tally {
    /// One list without the party, one in which it sends some transactions, and one in which it does what it likes.
    fn add(&mut self, random: &mut Random, game: &Game, course: &Course, party: u8) {
        let others = Others::of(&game.sheet, &game.setup, &course.position, party);
        let none = BTreeSet::new();
        let next = further(random, game, course, |step| is_without(party, step));
        self.assert_foreseen(game, course, &next, &others, &none);
        self.ruled_out += ruled_out(&others, &none);
        let lent: BTreeSet<u8> = (0..game.sheet.count())
            .filter(|_| random.percent(30))
            .collect();
        let sends = |step: &[u8; 4]| [3, 4].contains(&step[0]) && lent.contains(&step[2]);
        let next = further(random, game, course, |step| {
            is_without(party, step) || sends(step)
        });
        self.assert_foreseen(game, course, &next, &others, &lent);
        let next = further(random, game, course, |_| true);
        let (before, can) = (confirmed(game, &course.accepted), others.can(&none));
        let after = confirmed(game, &next.accepted);
        let outside = |t: &u8| !before.contains_key(t) && !can.contains(t);
        self.by_the_party += usize::from(after.keys().any(outside));
    }

    fn assert_foreseen(
        &mut self,
        game: &Game,
        course: &Course,
        next: &Course,
        others: &Others,
        also: &BTreeSet<u8>,
    ) {
        let before = confirmed(game, &course.accepted);
        let (can, elsewhere) = (others.can(also), others.elsewhere(also));
        for (t, destination) in confirmed(game, &next.accepted) {
            if before.contains_key(&t) {
                continue;
            }
            let about = format!("{t} without {} after {:?}", others.party, next.accepted);
            assert!(can.contains(&t), "{about}");
            assert!(
                destination == others.party || elsewhere.contains(&t),
                "{about}"
            );
            self.came += 1;
            self.for_the_party += usize::from(destination == others.party);
        }
        let after = Others::of(&game.sheet, &game.setup, &next.position, others.party);
        let left = after.can(also);
        assert!(left.is_subset(&can), "{left:?} after {:?}", next.accepted);
        self.lists += 1;
    }

    /// Every party in some positions of a walk.
    fn walk(&mut self, random: &mut Random, game: &Game) {
        for course in older::walk(random, game, TURNS) {
            for &party in game.sheet.parties {
                if random.percent(20) {
                    self.add(random, game, &course, party);
                }
            }
        }
    }
}

fn ruled_out(others: &Others, also: &BTreeSet<u8>) -> usize {
    let can = others.can(also);
    let all = 0..others.sheet.count();
    all.filter(|&t| !others.gone(t) && !can.contains(&t))
        .count()
}

/// Each count, so that the test can fail: something comes, something cannot, and the party itself brings what is ruled out.
fn assert_counts(name: &str, tally: &Tally) {
    println!("{name}: {tally:?}");
    let counts = [
        tally.came,
        tally.for_the_party,
        tally.ruled_out,
        tally.by_the_party,
    ];
    assert!(counts.iter().all(|&count| count > 0), "{name}: {tally:?}");
}

#[test]
fn saswap() {
    let mut random = Random::new(4201);
    for conduct in 0..=2 {
        for stealth in 0..=1 {
            let mut tally = Tally::default();
            for walk in 0..60 {
                let game = Game::saswap(1 + walk % 3, conduct, stealth);
                tally.walk(&mut random, &game);
            }
            assert_counts(&format!("conduct {conduct}, stealth {stealth}"), &tally);
        }
    }
}

#[test]
fn small_sheets() {
    let mut random = Random::new(4202);
    let mut tally = [Tally::default(); 2];
    for walk in 0..800 {
        let (n, s) = (random.between(2, 9) as u8, random.between(1, 5) as u8);
        let shape = random.pick(&random::SHAPES);
        let three = walk % 2;
        let sheet = match three {
            0 => random::sheet_of(&mut random, n, s, shape),
            _ => random::ring_of(&mut random, n, s, shape),
        };
        let blocks = random.between(1, 3) as u16;
        let game = Game::new((sheet, random::setup_of(&mut random, blocks, 0)));
        tally[three].walk(&mut random, &game);
    }
    assert_counts("two parties", &tally[0]);
    assert_counts("three parties", &tally[1]);
}

/// The set after a journal, and the part of it that can come for another payee.
fn sets(game: &Game, steps: &[[u8; 4]], party: u8, also: &[u8]) -> [Vec<u8>; 2] {
    let (number, course) = journal::run(&game.sheet, &game.setup, steps);
    assert_eq!(number, 0, "{steps:?}");
    let others = Others::of(&game.sheet, &game.setup, &course.position, party);
    let also = also.iter().copied().collect();
    [others.can(&also), others.elsewhere(&also)].map(|set| set.into_iter().collect())
}

/// The steps that confirm a transaction for the contract.
fn sent(party: u8, t: u8) -> [[u8; 4]; 3] {
    [[3, party, t, 2], [5, 2, t, 2], MINE]
}

/// The examples of crates/claim_attainable/proofs/Examples.antt.
#[test]
fn examples() {
    let shares = [[1, 0, 255, 2], [1, 1, 255, 2]];
    let locked = [&shares[..], &sent(0, 0), &sent(1, 1)].concat();
    let [careful, stealthy] = [0, 1].map(|stealth| Game::saswap(1, 2, stealth));
    let can =
        |game, steps: &[[u8; 4]], party, also: &[u8]| sets(game, steps, party, also)[0].clone();
    assert_eq!(can(&careful, &locked, ALICE, &[]), [4, 6, 14]);
    assert_eq!(can(&careful, &locked, BOB, &[]), [3, 4, 5, 6, 11, 13]);
    let shared = [&locked[..], &[[1, 0, 2, 2]]].concat();
    let late = [&shared[..], &[MINE]].concat();
    assert_eq!(can(&careful, &shared, ALICE, &[]), [2, 4, 6, 9, 14]);
    assert_eq!(can(&careful, &late, ALICE, &[]), [4, 6, 14]);
    assert_eq!(can(&stealthy, &late, ALICE, &[]), [2, 4, 6, 9, 14]);
    let loose = Game::saswap(1, 1, 0);
    let held = [&shared[..], &[[2, 1, 3, 0]]].concat();
    assert_eq!(can(&careful, &shared, BOB, &[]), [4, 5, 6, 13]);
    assert_eq!(can(&careful, &held, BOB, &[]), [4, 6, 8]);
    assert_eq!(can(&loose, &held, BOB, &[]), [3, 4, 5, 6, 8, 11, 13]);
    assert_eq!(can(&careful, &locked, ALICE, &[REFUND_1]), [3, 4, 6, 8, 14]);
    let refunded = [&locked[..], &[MINE, [3, 0, 3, 2]]].concat();
    let done = [&refunded[..], &[[7, 2, 3, 2], MINE]].concat();
    assert_eq!(can(&careful, &refunded, ALICE, &[]), [3, 4, 6, 8, 14]);
    assert_eq!(can(&careful, &done, ALICE, &[]), [8]);
    let given = [
        &sent(0, 0)[..],
        &[[2, 0, 0, 1], MINE, MINE, MINE, [3, 1, 4, 2], [3, 1, 12, 1]],
    ]
    .concat();
    assert_eq!(
        sets(&Game::saswap(1, 0, 0), &given, BOB, &[]),
        [vec![4, 12], vec![4]]
    );
}

/// On the sample ring each party's coin stands still without it, and the others' claims wait for Alice's secret.
#[test]
fn ring() {
    let game = Game::new((RING.to_vec(), vec![1, 0, 0, 0]));
    let can = |party| sets(&game, &[], party, &[])[0].clone();
    assert_eq!(can(ALICE), [1, 2, 6, 8]);
    assert_eq!(can(BOB), [0, 2, 4, 7, 8]);
    assert_eq!(can(CAROL), [0, 1, 3, 4, 6]);
}
