//! What Slip 10 comes to, by the model and by the built library: a sheet of two answers as the sheet of three with a Carol without keys
//! does, on all that does not name her; and the three parties of a sheet can be renamed.

use swap_tests::calls::{Call, Inputs};
use swap_tests::compare::Game;
use swap_tests::model::journal::Course;
use swap_tests::model::report::ROW;
use swap_tests::model::sheet::{self, Head, THREE};
use swap_tests::model::{calls, desk, outage, report, CAROL};
use swap_tests::random::{self, Case, Random};
use swap_tests::requests::{by_library, by_model, Request, Version};
use swap_tests::slack::row as slack;

/// The steps of a journal, at most.
const STEPS: usize = 60;
/// What a buffer holds before a call.
const FILL: u8 = 170;
/// The bytes of the longest list.
const LIST: usize = 1_988;

// Carol without keys.

/// The same sheet with a Carol who holds no key and is nobody's payee.
fn with_carol(sheet: &[u8]) -> Vec<u8> {
    let mut ring = sheet.to_vec();
    ring[0] += THREE;
    ring.insert(5, 0);
    ring
}

/// Whether a step names Carol, as party or destination.
fn names_carol(step: &[u8]) -> bool {
    step[1] == CAROL || step[3] == CAROL
}

/// The steps of a list that do not name Carol.
fn without_carol(list: &[u8]) -> Vec<u8> {
    let steps = list.chunks_exact(4).filter(|step| !names_carol(step));
    steps.flatten().copied().collect()
}

/// What a version answers, and the buffer after it.
fn asked(version: Version, request: &Request, case: &Case, before: &[u8]) -> (u32, Vec<u8>) {
    let mut output = before.to_vec();
    let number = version(request, &Inputs::of(case), &mut output);
    (number, output)
}

/// A game of two, a journal that does not name Carol, and requests that do not.
fn game_without_carol(random: &mut Random) -> (Case, Vec<Request>) {
    let game = Game::new(random::any_game(random));
    let manner = random::manner(random, STEPS);
    let groups = random::groups(random, &game.sheet, &game.setup, manner);
    let steps: Vec<[u8; 4]> = groups.into_iter().filter(|s| !names_carol(s)).collect();
    let mut case = game.case(&steps);
    if random.percent(70) {
        let accepted = calls::run(&case.0, &case.1, &case.2).accepted;
        case.2.truncate(4 * accepted);
    }
    let fits = |request: &Request| match request {
        Request::Ask { step } | Request::Commit { step, .. } => {
            step.len() != 4 || !names_carol(step)
        }
        Request::Blocks { list } => list.chunks_exact(4).all(|entry| entry[1] != CAROL),
        Request::Earliest { dests, .. } => !dests.contains(&CAROL),
        // its damaged journals could name her
        Request::Desk { .. } => false,
        // which has a row for her
        Request::Slack => false,
        _ => true,
    };
    let mut requests = random::further(random, &game.sheet, &game.setup, &case);
    requests.retain(fits);
    let swaps: Vec<_> = [0, 1, 2, 3, 5]
        .map(|part| (case.1.clone(), case.2[..case.2.len() / 5 * part].to_vec()))
        .into();
    requests.push(Request::Desk {
        bundle: desk::bundle(&swaps),
    });
    requests.extend([Call::Check, Call::Run, Call::Report].map(Request::Four));
    (case, requests)
}

/// Under open conduct a sheet of two answers as the sheet of three with a Carol without keys does.
fn assert_carol_changes_nothing(version: Version, seed: u64, count: usize) {
    let mut random = Random::new(seed);
    let mut accepted = 0;
    for _ in 0..count {
        let (case, requests) = game_without_carol(&mut random);
        let (sheet, setup, journal) = &case;
        let ring = (with_carol(sheet), setup.clone(), journal.clone());
        for request in requests {
            let room = random.below(2_500);
            let before = request.buffer(&case, random.bytes(room));
            let two = asked(version, &request, &case, &before);
            let three = asked(version, &request, &ring, &before);
            assert_eq!(two, three, "{request:?} {case:?}");
            accepted += usize::from(two.0 >> 16 == 0);
        }
        let before = [FILL; LIST];
        let list = Request::Four(Call::List);
        let [(two, ours), (three, theirs)] =
            [&case, &ring].map(|case| asked(version, &list, case, &before));
        assert_eq!(two >> 16, three >> 16);
        if two >> 16 == 0 {
            let theirs = without_carol(&theirs[..4 * three as usize]);
            assert_eq!(ours[..4 * two as usize], theirs, "{case:?}");
        }
        let [(two, ours), (three, theirs)] =
            [&case, &ring].map(|case| asked(version, &Request::Slack, case, &before));
        assert_eq!(two, three);
        assert_eq!(ours[..2 * slack::ROW], theirs[..2 * slack::ROW], "{case:?}");
        if two == 0 {
            let carol = [255, 255, 255, 127, 255, 255, 0, 0];
            assert_eq!(theirs[2 * slack::ROW..][..slack::ROW], carol, "{case:?}");
        }
    }
    assert!(accepted > 4 * count);
}

#[test]
fn carol_without_keys_by_the_model() {
    assert_carol_changes_nothing(by_model, 108, 1_500);
}

#[test]
fn carol_without_keys_by_the_library() {
    assert_carol_changes_nothing(by_library, 108, 1_500);
}

/// The model's positions are the same too, and Carol has no key in them.
#[test]
fn positions_without_carol() {
    let mut random = Random::new(109);
    let mut steps = 0;
    for _ in 0..400 {
        let (two, setup) = random::any_game(&mut random);
        let game = Game::new((two.clone(), setup.clone()));
        let ring = Game::new((with_carol(&two), setup));
        let manner = random::manner(&mut random, STEPS);
        let groups = random::groups(&mut random, &game.sheet, &game.setup, manner);
        let mut courses = [Course::fresh(&game.sheet), Course::fresh(&ring.sheet)];
        for step in groups.iter().filter(|step| !names_carol(*step)) {
            let [ours, theirs] = &mut courses;
            let number = ours.take(&game.sheet, &game.setup, step);
            assert_eq!(number, theirs.take(&ring.sheet, &ring.setup, step));
            assert_eq!(ours, theirs);
            assert_eq!(theirs.position.held[usize::from(CAROL)], 0);
            steps += usize::from(number == 0);
        }
        let reports = [(&game, &courses[0]), (&ring, &courses[1])]
            .map(|(game, course)| report::bytes(&game.sheet, &game.setup, course));
        assert_eq!(reports[0], reports[1]);
    }
    assert!(steps > 4_000, "{steps}");
}

// Renaming the parties.

/// A new name for each of Alice, Bob and Carol.
#[derive(Clone, Copy, Debug)]
struct Names([u8; 3]);

/// All but the one that leaves everybody's name.
const RENAMINGS: [Names; 5] = [
    Names([1, 0, 3]),
    Names([3, 1, 0]),
    Names([0, 3, 1]),
    Names([1, 3, 0]),
    Names([3, 0, 1]),
];

impl Names {
    /// The number of a party or a destination; any other number is its own.
    fn number(&self, number: u8) -> u8 {
        match number {
            0 | 1 => self.0[usize::from(number)],
            CAROL => self.0[2],
            other => other,
        }
    }

    /// A mask of payees.
    fn payees(&self, mask: u8) -> u8 {
        let parties = [0, 1, CAROL].into_iter();
        let named = parties.filter(|&party| mask & sheet::payee_bit(party) != 0);
        named
            .map(|party| sheet::payee_bit(self.number(party)))
            .sum()
    }

    fn sheet(&self, bytes: &[u8]) -> Vec<u8> {
        let mut renamed = bytes.to_vec();
        for (place, party) in [0, 1, CAROL].into_iter().enumerate() {
            let to = match self.number(party) {
                CAROL => 5,
                party => 3 + usize::from(party),
            };
            renamed[to] = bytes[3 + place];
        }
        let n = usize::from(Head::of(bytes).count);
        for entry in renamed[6..6 + 4 * n].chunks_exact_mut(4) {
            entry[1] = self.payees(entry[1]);
        }
        renamed
    }

    /// Rows of four bytes with numbers of parties or destinations in these places; bytes after the last row stay.
    fn rows(&self, bytes: &[u8], places: &[usize]) -> Vec<u8> {
        let mut renamed = bytes.to_vec();
        for row in renamed.chunks_exact_mut(4) {
            for &place in places {
                row[place] = self.number(row[place]);
            }
        }
        renamed
    }

    fn steps(&self, bytes: &[u8]) -> Vec<u8> {
        self.rows(bytes, &[1, 3])
    }

    fn case(&self, (sheet, setup, journal): &Case) -> Case {
        (self.sheet(sheet), setup.clone(), self.steps(journal))
    }

    fn request(&self, request: &Request) -> Request {
        match request {
            Request::Blocks { list } => Request::Blocks {
                list: self.rows(list, &[1]),
            },
            Request::Earliest { mask, dests } => Request::Earliest {
                mask: *mask,
                dests: self.rows(dests, &[0]),
            },
            Request::Ask { step } => Request::Ask {
                step: self.steps(step),
            },
            Request::Commit { step, count, size } => Request::Commit {
                step: self.steps(step),
                count: *count,
                size: *size,
            },
            Request::Desk { bundle } => {
                let swaps = desk::swaps(bundle).expect("a bundle");
                let renamed = swaps
                    .iter()
                    .map(|swap| (swap.setup.to_vec(), self.steps(swap.journal)));
                Request::Desk {
                    bundle: desk::bundle(&renamed.collect::<Vec<_>>()),
                }
            }
            other => other.clone(),
        }
    }

    /// A row for each party, in the new order and with another destination.
    fn parties(&self, bytes: &[u8]) -> Vec<u8> {
        let mut renamed = bytes.to_vec();
        for (row, party) in bytes.chunks_exact(slack::ROW).zip([0, 1, CAROL]) {
            let place = match self.number(party) {
                CAROL => 2,
                party => usize::from(party),
            };
            let to = &mut renamed[slack::ROW * place..][..slack::ROW];
            to.copy_from_slice(row);
            to[5] = self.number(row[5]);
        }
        renamed
    }

    /// A line of the page with another payee.
    fn line(&self, line: &str) -> String {
        let names = [("Alice", 0), ("Bob", 1), ("Carol", CAROL)];
        let payee = line[7..16].trim_start();
        let number = names.iter().find(|(name, _)| *name == payee);
        let payee = number.map_or(payee, |&(_, number)| {
            let renamed = self.number(number);
            let name = names.iter().find(|&&(_, number)| number == renamed);
            name.expect("a name").0
        });
        format!("{}{payee:>9}{}", &line[..7], &line[16..])
    }

    /// What an accepted request wrote, renamed; a list of steps in no order.
    fn output(&self, request: &Request, number: u32, bytes: &[u8]) -> Vec<u8> {
        let mut renamed = bytes.to_vec();
        let rows = |bytes: &[u8], width: usize, of: fn(&Names, u8) -> u8| -> Vec<u8> {
            let mut renamed = bytes.to_vec();
            for row in renamed.chunks_exact_mut(width) {
                row[1] = of(self, row[1]);
            }
            renamed
        };
        match request {
            Request::Four(Call::List) => {
                renamed = sorted(&self.steps(&bytes[..4 * number as usize]));
            }
            Request::Four(Call::Report) => renamed = rows(bytes, ROW, Names::number),
            Request::Outage { .. } => renamed = rows(bytes, outage::ROW, Names::payees),
            Request::Slack => renamed = self.parties(bytes),
            Request::Page => {
                let text = std::str::from_utf8(bytes).expect("text");
                let lines = text.split_inclusive('\n').map(|line| self.line(line));
                renamed = lines.collect::<String>().into_bytes();
            }
            Request::Earliest { .. } => renamed = self.rows(bytes, &[1]),
            Request::Commit { .. } | Request::Shrink => renamed = self.steps(bytes),
            _ => {}
        }
        renamed
    }
}

/// The steps of a list, sorted.
fn sorted(list: &[u8]) -> Vec<u8> {
    let mut steps: Vec<&[u8]> = list.chunks_exact(4).collect();
    steps.sort_unstable();
    steps.concat()
}

/// Room for what an accepted request writes: exactly that, and for a list as much as any takes up.
fn room(request: &Request, case: &Case) -> Vec<u8> {
    match request {
        Request::Four(Call::List) => vec![FILL; LIST],
        _ => vec![FILL; request.needed(case)],
    }
}

/// Sheets, journals and requests of three parties with other names get the same answers with these names.
fn assert_renamed(version: Version, seed: u64, count: usize) {
    let mut random = Random::new(seed);
    let mut accepted = 0;
    for turn in 0..count {
        let names = RENAMINGS[turn % 5];
        let case = random::ring_front(&mut random, STEPS);
        let (sheet, setup) = random::read(&case.0, &case.1);
        let renamed = names.case(&case);
        let mut requests = random::further(&mut random, &sheet, &setup, &case);
        requests.retain(|request| match request {
            Request::Desk { bundle } => desk::swaps(bundle).is_some(),
            _ => true,
        });
        let four = [Call::Check, Call::Run, Call::List, Call::Report];
        requests.extend(four.map(Request::Four));
        for request in requests {
            let fill = room(&request, &case);
            let start = request.buffer(&case, fill.clone());
            let (number, ours) = asked(version, &request, &case, &start);
            let other = names.request(&request);
            let (same, theirs) = asked(version, &other, &renamed, &other.buffer(&renamed, fill));
            assert_eq!(number, same, "{names:?} {request:?} {case:?}");
            if number >> 16 != 0 {
                continue;
            }
            let ours = names.output(&request, number, &ours);
            let theirs = match request {
                Request::Four(Call::List) => sorted(&theirs[..4 * number as usize]),
                _ => theirs,
            };
            assert_eq!(ours, theirs, "{names:?} {request:?} {case:?}");
            accepted += 1;
        }
    }
    assert!(accepted > 4 * count, "{accepted}");
}

#[test]
fn renamed_by_the_model() {
    assert_renamed(by_model, 110, 1_500);
}

#[test]
fn renamed_by_the_library() {
    assert_renamed(by_library, 110, 1_500);
}
