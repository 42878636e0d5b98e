//! The random inputs of the tests: sheets are valid and of every size, and cases meet the refusals 1 to 24 but 23.

use std::collections::BTreeSet;
use swap_tests::model::calls;
use swap_tests::model::journal::{self, Course};
use swap_tests::model::sheet::{self, Lock};
use swap_tests::random::{self, read, Random, Shape};

#[test]
fn random_sheets_are_valid_and_various() {
    let mut random = Random::new(1);
    let mut sizes = BTreeSet::new();
    let mut locks = [0; 3];
    let (mut deepest, mut widest, mut coins) = (0, 0, 0);
    for _ in 0..3000 {
        let bytes = random::sheet(&mut random);
        assert_eq!(calls::check(&bytes), 0);
        let sheet = sheet::read(&bytes).unwrap();
        sizes.insert((sheet.count(), sheet.signatures));
        for t in 0..sheet.count() {
            locks[match sheet.transaction(t).lock {
                Lock::None => 0,
                Lock::Absolute { .. } => 1,
                Lock::SinceParent { .. } => 2,
            }] += 1;
            deepest = deepest.max(sheet.line(t).len());
            widest = widest.max(sheet.rivals(t).len());
        }
        coins = coins.max(sheet.coins().len());
    }
    let ns: BTreeSet<u8> = sizes.iter().map(|&(n, _)| n).collect();
    let ss: BTreeSet<u8> = sizes.iter().map(|&(_, s)| s).collect();
    assert_eq!((ns.len(), ss.len()), (32, 8));
    assert!(deepest >= 20 && widest >= 12 && coins >= 12);
    assert!(locks.iter().all(|&count| count > 1000));
    let deep = random::sheet_of(&mut random, 32, 8, Shape::Deep);
    assert_eq!((deep[0], deep[1], calls::check(&deep)), (32, 8, 0));
}

#[test]
fn damaged_sheets_meet_every_check() {
    let mut random = Random::new(2);
    let mut seen = [0; 9];
    for _ in 0..20_000 {
        let mut bytes = random::sheet(&mut random);
        random::damage(&mut random, &mut bytes);
        seen[calls::check(&bytes) as usize] += 1;
    }
    assert!(seen.iter().all(|&count| count >= 20), "{seen:?}");
}

#[test]
fn random_cases_meet_every_refusal() {
    let mut random = Random::new(3);
    let mut seen = [0; 26];
    for _ in 0..6_000 {
        let (sheet, setup, journal) = random::case(&mut random, 60);
        let run = calls::run(&sheet, &setup, &journal);
        assert_eq!(run.rest, &journal[4 * run.accepted..]);
        if run.refusal == 0 {
            assert!(run.rest.is_empty());
        }
        if run.refusal <= 10 || run.refusal == 24 {
            assert!(run.refusal == 0 || run.accepted == 0);
            seen[run.refusal as usize] += 1;
            continue;
        }
        // Past the first refused step too.
        let (sheet, setup) = read(&sheet, &setup);
        let mut course = Course::fresh(&sheet);
        for (place, group) in journal::groups(&journal).iter().enumerate() {
            let number = course.take(&sheet, &setup, group);
            if place == run.accepted {
                assert_eq!(number, run.refusal);
            }
            seen[number as usize] += 1;
        }
    }
    // 23 needs a long journal, 25 a buffer.
    for number in (0..=24).filter(|number| *number != 23) {
        let least = if number <= 8 { 1 } else { 20 };
        assert!(seen[number] >= least, "{number}: {seen:?}");
    }
}
