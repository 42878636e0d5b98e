//! The processor time of a call, by each version in turn.

use std::hint::black_box;
use std::time::Duration;
use swap_tests::clock::thread_time;

/// How often the versions take turns at each place of the stack.
const TURNS: usize = 25;
/// The least time of one turn.
const TURN: Duration = Duration::from_micros(250);

/// One version of a call: it is lent the buffer and answers a number.
pub type Work<'a> = &'a dyn Fn(&mut [u8]) -> u32;

/// What is done to the buffer before each call.
#[derive(Clone, Copy, Debug, PartialEq, Eq)]
pub enum Buffer {
    /// It keeps what the call before has written.
    Kept,
    /// It is filled with zeros, and that is part of the time.
    Cleared,
}

/// A call: the buffer before it, and the answer and the buffer that the model leaves.
struct Task<'a> {
    start: &'a [u8],
    buffer: Buffer,
    answer: u32,
    output: Vec<u8>,
}

impl Task<'_> {
    /// The time of so many calls; each answer and the last output are the model's.
    fn time(&self, work: Work, calls: u32) -> Duration {
        let mut output = self.start.to_vec();
        let start = thread_time();
        for _ in 0..calls {
            if self.buffer == Buffer::Cleared {
                output.fill(0);
            }
            assert_eq!(black_box(work)(black_box(&mut output)), self.answer);
        }
        let time = thread_time() - start;
        assert_eq!(output, self.output);
        time
    }

    /// So many calls that they take one turn.
    fn calls(&self, work: Work) -> u32 {
        let mut calls = 1;
        while self.time(work, calls) < TURN {
            calls *= 2;
        }
        calls
    }
}

/// The nanoseconds of one call in a turn that begins so many bytes further down the stack.
#[inline(never)]
fn turn<const BYTES: usize>(task: &Task, work: Work, calls: u32) -> f64 {
    black_box([0u8; BYTES]);
    task.time(work, calls).as_secs_f64() * 1e9 / f64::from(calls)
}

/// Turns at four places of the stack, a quarter of a page and a quarter of a cache line apart: how fast a position is
/// copied depends on where it lies.
const PLACES: [fn(&Task, Work, u32) -> f64; 4] =
    [turn::<1_040>, turn::<2_080>, turn::<3_120>, turn::<4_160>];

/// The nanoseconds of one call by each version, the first of which is the model: the least of its turns at each place, and
/// of these the mean. All give the model's answer and output, from a buffer with these bytes.
pub fn measure(works: &[Work], start: &[u8], buffer: Buffer) -> Vec<f64> {
    let mut output = start.to_vec();
    let answer = works[0](&mut output);
    let task = Task {
        start,
        buffer,
        answer,
        output,
    };
    let calls: Vec<u32> = works.iter().map(|work| task.calls(*work)).collect();
    let mut least = vec![[f64::INFINITY; PLACES.len()]; works.len()];
    for _ in 0..TURNS {
        for (place, turn) in PLACES.iter().enumerate() {
            for (i, work) in works.iter().enumerate() {
                least[i][place] = least[i][place].min(turn(&task, *work, calls[i]));
            }
        }
    }
    let mean = |least: &[f64; PLACES.len()]| least.iter().sum::<f64>() / PLACES.len() as f64;
    least.iter().map(mean).collect()
}

/// The nanoseconds of each of these in turn, the least of so many turns.
pub fn least<const N: usize>(turns: usize, mut works: [&mut dyn FnMut(); N]) -> [f64; N] {
    let mut least = [f64::INFINITY; N];
    for _ in 0..turns {
        for (work, least) in works.iter_mut().zip(&mut least) {
            let start = thread_time();
            work();
            *least = least.min((thread_time() - start).as_secs_f64() * 1e9);
        }
    }
    least
}
