//! Deterministic random inputs: bytes, sheets, setups, damage and journals.

mod faults;
mod journals;
mod requests;
mod sheets;

pub use faults::*;
pub use journals::*;
pub use requests::*;
pub use sheets::*;

/// The splitmix64 generator.
#[derive(Clone, Debug)]
pub struct Random {
    state: u64,
}

impl Random {
    pub fn new(seed: u64) -> Random {
        Random { state: seed }
    }

    pub fn number(&mut self) -> u64 {
        self.state = self.state.wrapping_add(0x9e37_79b9_7f4a_7c15);
        let mut z = self.state;
        z = (z ^ (z >> 30)).wrapping_mul(0xbf58_476d_1ce4_e5b9);
        z = (z ^ (z >> 27)).wrapping_mul(0x94d0_49bb_1331_11eb);
        z ^ (z >> 31)
    }

    /// A number below a bound, which is at least 1.
    pub fn below(&mut self, bound: usize) -> usize {
        (self.number() % bound as u64) as usize
    }

    /// A number from least to most, both included.
    pub fn between(&mut self, least: usize, most: usize) -> usize {
        least + self.below(most - least + 1)
    }

    /// True in so many of a hundred cases.
    pub fn percent(&mut self, share: usize) -> bool {
        self.below(100) < share
    }

    pub fn byte(&mut self) -> u8 {
        self.number() as u8
    }

    pub fn bytes(&mut self, length: usize) -> Vec<u8> {
        (0..length).map(|_| self.byte()).collect()
    }

    pub fn pick<T: Copy>(&mut self, items: &[T]) -> T {
        items[self.below(items.len())]
    }
}

/// Sheet, setup and journal, as bytes.
pub type Case = (Vec<u8>, Vec<u8>, Vec<u8>);

/// Sheet, setup and journal of any sort, at times one of them damaged.
pub fn case(random: &mut Random, most: usize) -> Case {
    let game = game(random);
    case_of(random, game, most)
}

/// The same of a sheet of three.
pub fn ring_case(random: &mut Random, most: usize) -> Case {
    let game = ring_game(random);
    case_of(random, game, most)
}

fn case_of(random: &mut Random, game: (Vec<u8>, Vec<u8>), most: usize) -> Case {
    let (mut sheet, mut setup) = game;
    let manner = manner(random, most);
    let mut journal = journal(random, &sheet, &setup, manner);
    match random.below(20) {
        0 => damage(random, &mut sheet),
        1 => damage_bytes(random, &mut sheet[..5], 1),
        2 => damage(random, &mut setup),
        3 => damage(random, &mut journal),
        _ => {}
    }
    (sheet, setup, journal)
}

/// A case that is refused with this number, 1 to 22 or 24, where the journal's
/// walk comes by it; at times something of a later number is wrong too.
pub fn led_case(random: &mut Random, most: usize, number: u32) -> Case {
    let game = game(random);
    led_case_of(random, game, most, number)
}

/// The same of a sheet of three; with 32 the conduct is 1 or 2, and more may be wrong.
pub fn led_ring_case(random: &mut Random, most: usize, number: u32) -> Case {
    let game = ring_game(random);
    let (sheet, mut setup, mut journal) = led_case_of(random, game, most, number);
    if number == 32 {
        setup[2] = random.between(1, 2) as u8;
        if random.percent(50) {
            setup[3] = random.byte();
            damage(random, &mut journal);
        }
    }
    (sheet, setup, journal)
}

fn led_case_of(
    random: &mut Random,
    (mut sheet, mut setup): (Vec<u8>, Vec<u8>),
    most: usize,
    number: u32,
) -> Case {
    let manner = Manner {
        leap: 10,
        ..manner(random, most)
    };
    let mut journal = led_journal(random, &sheet, &setup, manner, number);
    let more = random.percent(30);
    if number <= 8 {
        if more {
            let later = random.between(number as usize + 1, 9).min(8);
            break_sheet(random, &mut sheet, later as u32);
        }
        break_sheet(random, &mut sheet, number);
    }
    if (9..=10).contains(&number) || number <= 8 && more {
        damage(random, &mut setup);
    }
    if number == 24 || number <= 10 && more {
        extend(random, &mut journal);
    }
    (sheet, setup, journal)
}
