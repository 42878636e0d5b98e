//! For how many blocks a party's box can be off: the definition against the game itself, in all positions.

use swap_tests::adversary::Graph;
use swap_tests::compare::Game;
use swap_tests::model::heights::NEVER;
use swap_tests::model::journal::Course;
use swap_tests::model::{ALICE, BOB, CONTRACT};
use swap_tests::random::{Random, MINE};
use swap_tests::slack::row::{Row, LONGEST};
use swap_tests::slack::search::{counts, small_game, Counts, Exact, Form, Sort};

fn saswap(conduct: u8, stealth: u8, form: Form) -> [Counts; 2] {
    let game = Game::saswap(1, conduct, stealth);
    let graph = Graph::of(&game);
    let all = [ALICE, BOB].map(|side| counts(&game, &graph, side, form));
    for found in &all {
        println!("conduct {conduct}, stealth {stealth}: {:?}", found.counts);
        assert_eq!(found.against(), 0);
    }
    assert!(all[0].of(Sort::Dangers) > 0);
    all
}

/// On careful SASwap, and on loose without stealth, no outage is warned of without danger; where the slack is 0, sending what is
/// counted on brings more.
#[test]
fn verdicts() {
    for (conduct, stealth) in [(2, 0), (2, 1), (1, 0)] {
        for found in saswap(conduct, stealth, Form::Whole) {
            let wrong = [Sort::FalseAlarms, Sort::Stuck, Sort::Below, Sort::Shut];
            let short = [Sort::Short, Sort::PoolShort, Sort::HandShort];
            assert_eq!(wrong.map(|sort| found.of(sort)), [0; 4]);
            assert_eq!(short.map(|sort| found.of(sort)), [0; 3]);
        }
    }
}

/// The slack is the exact one there: the longest outage without danger, where the payout is not given up and the party and the miner
/// alone can bring it.
#[test]
fn exact() {
    for (conduct, stealth) in [(2, 0), (2, 1), (1, 0)] {
        let game = Game::saswap(1, conduct, stealth);
        let graph = Graph::of(&game);
        for side in [ALICE, BOB] {
            let exact = Exact::of(&graph, side);
            for (position, n) in graph.numbered() {
                let row = Row::of(&game.sheet, &game.setup, position, side);
                assert_eq!(row.blocks, exact.slack(n), "{side} {position:?}");
            }
        }
    }
}

/// Before transaction 0 is confirmed no empty block can be mined. Nobody here can sign it; Bob has what he needs for transaction 1,
/// which is locked until one block is mined. His slack is all that can be asked for, and nothing ever pays him.
#[test]
fn before_transaction_0() {
    let sheet = [
        131, 2, 0, 2, 0, 0, 255, 5, 1, 0, 255, 2, 2, 0, 255, 2, 3, 0, 0, 0, 1, 1, 0, 0,
    ];
    let game = Game::new((sheet.to_vec(), vec![1, 0, 0, 0]));
    let mut course = Course::fresh(&game.sheet);
    course.take(&game.sheet, &game.setup, &[1, ALICE, 1, BOB]);
    assert_eq!(course.accepted.len(), 1);
    let row = Row::of(&game.sheet, &game.setup, &course.position, BOB);
    assert_eq!((row.blocks, row.counted), (LONGEST, Some((1, BOB))));
    let graph = Graph::of_any(&game, 800).expect("few positions");
    let exact = Exact::of(&graph, BOB);
    assert!(exact.alone.iter().all(Option::is_none));
    assert!(exact.fate.given_up[graph.number(&course.position)]);
}

/// What is kept as the position stands misses nothing either, and warns more often.
#[test]
fn plain() {
    for (conduct, stealth) in [(2, 0), (2, 1), (1, 0)] {
        saswap(conduct, stealth, Form::Plain);
    }
}

/// Random sheets of two and three whose game has few positions.
fn small(form: Form) -> [Counts; 2] {
    let mut random = Random::new(4242);
    let mut found = [Counts::default(), Counts::default()];
    let mut games = 0;
    for game in (0..1_000).filter_map(|_| small_game(&mut random)) {
        if let Some(graph) = Graph::of_any(&game, 800) {
            games += 1;
            for &side in game.sheet.parties {
                let stealth = usize::from(game.setup.stealth);
                found[stealth].join(&counts(&game, &graph, side, form));
            }
        }
    }
    println!("{games} games");
    for counts in &found {
        println!("{:?}", counts.counts);
        assert_eq!(counts.against(), 0);
        assert!(counts.of(Sort::Dangers) > 1_000);
    }
    found
}

/// Where the slack is 0 the send or the hand-in of what is counted on brings more; with stealth the hand-in does.
#[test]
fn small_sheets() {
    let wrong = [Sort::Stuck, Sort::Below, Sort::Shut, Sort::Short];
    for counts in small(Form::Whole) {
        assert_eq!(wrong.map(|sort| counts.of(sort)), [0; 4]);
        assert_eq!(counts.of(Sort::HandShort), 0);
    }
}

/// With stealth a send to the pool may not do where the hand-in does: it shows Alice's secret, by which Bob can sign transaction 3 for
/// himself and hand it in.
#[test]
fn hand_in_and_not_send() {
    let sheet = [
        4, 2, 3, 2, 1, 255, 0, 1, 0, 0, 0, 1, 0, 1, 3, 1, 0, 0, 3, 3, 0, 0, 0, 2, 1, 0, 0, 0, 0,
    ];
    let game = Game::new((sheet.to_vec(), vec![1, 0, 0, 1]));
    let after = |steps: &[[u8; 4]]| {
        let mut course = Course::fresh(&game.sheet);
        for step in [&[[4, BOB, 0, CONTRACT], MINE][..], steps].concat() {
            course.take(&game.sheet, &game.setup, &step);
        }
        assert_eq!(course.accepted.len(), 2 + steps.len());
        Row::of(&game.sheet, &game.setup, &course.position, ALICE)
    };
    let now = after(&[]);
    assert_eq!(
        (now.blocks, now.counted, now.due),
        (0, Some((3, ALICE)), true)
    );
    assert_eq!(after(&[[3, ALICE, 3, ALICE]]).blocks, NEVER);
    assert_eq!(after(&[[4, ALICE, 3, ALICE]]).blocks, LONGEST);
}

#[test]
fn small_sheets_plain() {
    small(Form::Plain);
}
