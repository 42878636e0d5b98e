//! The model by document 01: the ledger's lines, and the claims about ledger, secrets and payouts on random walks.

use std::collections::BTreeMap;
use swap_tests::model::journal::Course;
use swap_tests::model::ledger::{self, Entry};
use swap_tests::model::report::{self, Holders};
use swap_tests::model::{calls, claims, sheet};
use swap_tests::random::{self, read, walk, Random};

fn entry(transaction: u8, destination: u8, block: u32) -> Entry {
    Entry {
        transaction,
        destination,
        block,
    }
}

#[test]
fn ledger_lines() {
    let saswap = sheet::read(&sheet::saswap(3)).unwrap();
    let holders = |entries: &[Entry]| ledger::holders(&saswap, 3, entries);
    let of = |a: Option<u8>, b: Option<u8>| Some(Holders::from([(0, a), (1, b)]));
    assert_eq!(holders(&[]), of(None, None));
    assert_eq!(holders(&[entry(0, 2, 1)]), of(Some(2), None));
    // By block and then number, whatever the order of the list.
    let swap = [entry(9, 1, 2), entry(2, 2, 2), entry(0, 2, 1)];
    assert_eq!(holders(&swap), of(Some(1), None));
    // An opening twice; a spend without its parent; a rival; a spend twice.
    assert_eq!(holders(&[entry(0, 2, 1), entry(0, 2, 2)]), None);
    assert_eq!(holders(&[entry(2, 2, 1)]), None);
    assert_eq!(holders(&[entry(1, 2, 1), entry(2, 2, 2)]), None);
    let rivals = [entry(0, 2, 1), entry(2, 2, 2), entry(7, 0, 3)];
    assert_eq!(holders(&rivals), None);
    assert_eq!(
        holders(&[entry(0, 2, 1), entry(7, 0, 3), entry(7, 0, 3)]),
        None
    );
    // The lock must be below b: revoke 6, then timeout 7 + 6.
    let timeout = |revoke: u32, timeout: u32| {
        holders(&[entry(0, 2, 1), entry(4, 2, revoke), entry(6, 2, timeout)])
    };
    assert_eq!(timeout(6, 20), None);
    assert_eq!(timeout(7, 13), None);
    assert_eq!(timeout(7, 14), of(Some(2), None));
    assert_eq!(holders(&[entry(0, 2, 0)]), None);
    assert_eq!(holders(&[entry(15, 2, 1)]), None);
}

#[test]
fn payouts_are_coins_of_parties() {
    let holders = Holders::from([(0, Some(1)), (1, Some(2)), (4, None), (7, Some(0))]);
    assert_eq!(report::payouts(&holders), BTreeMap::from([(0, 1), (7, 0)]));
}

/// The holders, which the ledger over the entries of the mined blocks gives too.
fn agreed_holders(game: &(Vec<u8>, Vec<u8>), course: &Course) -> Holders {
    let (sheet, setup) = read(&game.0, &game.1);
    let journal = course.accepted.concat();
    let bytes = calls::report_bytes(&game.0, &game.1, &journal).unwrap();
    assert!(claims::ledger_agrees(&sheet, &setup, course, &bytes));
    report::holders_from_position(&sheet, &course.position)
}

#[test]
fn ledger_agrees_on_random_sheets() {
    let mut random = Random::new(7);
    let (mut paid, mut locked, mut nobody) = (0, 0, 0);
    for _ in 0..1_500 {
        let game = random::any_game(&mut random);
        let manner = random::manner(&mut random, 120);
        let course = walk(&mut random, &game, manner, |_, _, _| {});
        for holder in agreed_holders(&game, &course).values() {
            match holder {
                None => nobody += 1,
                Some(2) => locked += 1,
                Some(_) => paid += 1,
            }
        }
    }
    assert!(paid > 500 && locked > 500 && nobody > 500);
}

#[test]
fn ledger_agrees_on_saswap_sheets() {
    let mut random = Random::new(9);
    let mut seen = BTreeMap::new();
    for round in 0..1_500 {
        let conduct = (round % 3) as u8;
        let game = random::saswap_game(&mut random, conduct);
        let manner = random::manner(&mut random, 100);
        let course = walk(&mut random, &game, manner, |_, _, _| {});
        let holders = agreed_holders(&game, &course);
        *seen
            .entry((conduct, report::payouts(&holders).len()))
            .or_insert(0) += 1;
    }
    for conduct in 0..3 {
        for payouts in 0..3 {
            let count = seen.get(&(conduct, payouts)).copied().unwrap_or(0);
            assert!(count >= 10, "{conduct} {payouts}: {seen:?}");
        }
    }
}

/// What walks under one conduct met.
#[derive(Default)]
struct Met {
    one_secret: usize,
    both_secrets: usize,
    two_payouts: usize,
    one_party_takes_all: usize,
}

fn meet(seed: u64, conduct: u8, walks: usize) -> Met {
    let mut random = Random::new(seed);
    let mut met = Met::default();
    for _ in 0..walks {
        let game = random::saswap_game(&mut random, conduct);
        let manner = random::manner(&mut random, 100);
        let mut most_secrets = 0;
        let course = walk(&mut random, &game, manner, |sheet, _, course| {
            let secrets = claims::secrets_out(sheet, &course.position);
            most_secrets = most_secrets.max(secrets.count_ones());
        });
        met.one_secret += usize::from(most_secrets == 1);
        met.both_secrets += usize::from(most_secrets == 2);
        let (sheet, _) = read(&game.0, &game.1);
        let holders = report::holders_from_position(&sheet, &course.position);
        met.two_payouts += usize::from(report::payouts(&holders).len() == 2);
        let twice = claims::paid_twice(&sheet, &course.position);
        met.one_party_takes_all += usize::from(twice);
    }
    met
}

#[test]
fn careful_claims() {
    let careful = meet(11, 2, 3_000);
    assert!(careful.one_secret > 500, "{}", careful.one_secret);
    assert!(careful.two_payouts > 200, "{}", careful.two_payouts);
    assert_eq!(careful.both_secrets, 0);
    assert_eq!(careful.one_party_takes_all, 0);
    // Under loose conduct neither claim holds.
    let loose = meet(12, 1, 3_000);
    assert!(loose.both_secrets > 20, "{}", loose.both_secrets);
    assert!(
        loose.one_party_takes_all > 10,
        "{}",
        loose.one_party_takes_all
    );
}
