//! One call timed on both sides.

use std::hint::black_box;
use std::time::{Duration, Instant};

use crate::cases::Runner;

/// Repeats of each comparison; the spread is over these.
pub const REPEATS: usize = 9;

/// Turns that the two sides take in one repeat; each side's quickest counts. They are short, so that some of them meet no other work.
pub const TURNS: usize = 80;

/// How long one side's turn takes at least.
const TURN: Duration = Duration::from_micros(250);

/// Nanoseconds a call on each side, and their ratios.
pub struct Figure {
    pub name: &'static str,
    pub ours: f64,
    pub theirs: f64,
    /// The ratio of each repeat, in rising order.
    pub ratios: [f64; REPEATS],
}

impl Figure {
    pub fn ratio(&self) -> f64 {
        self.ratios[REPEATS / 2]
    }
}

/// Makes a call so many times. What it hands back is kept in memory.
pub fn repeat<A>(calls: u32, call: &mut impl FnMut() -> A) {
    for _ in 0..calls {
        let answer = call();
        black_box(&answer);
    }
}

/// Nanoseconds a call, over `calls` calls.
fn turn<A>(calls: u32, call: &mut impl FnMut() -> A) -> f64 {
    let begun = Instant::now();
    repeat(calls, call);
    begun.elapsed().as_nanos() as f64 / f64::from(calls)
}

/// How many calls fill a turn.
fn calls_in_a_turn<A>(call: &mut impl FnMut() -> A) -> u32 {
    let mut calls = 1;
    while turn(calls, call) * f64::from(calls) < TURN.as_nanos() as f64 {
        calls *= 2;
    }
    calls
}

/// Runs `inner` deeper in the stack, by a frame for each step: what lies where in a cache line then differs.
#[inline(never)]
fn deeper<R>(steps: usize, inner: &mut dyn FnMut() -> R) -> R {
    let frame = black_box([steps as u8; 72]);
    let result = match steps {
        0 => inner(),
        _ => deeper(steps - 1, inner),
    };
    black_box(&frame);
    result
}

/// Times each case.
#[derive(Default)]
pub struct Timing {
    pub figures: Vec<Figure>,
}

impl Runner for Timing {
    /// The two sides take turns. Each repeat is at another depth of the stack.
    fn case<A, B>(
        &mut self,
        name: &'static str,
        mut ours: impl FnMut() -> A,
        mut theirs: impl FnMut() -> B,
    ) {
        let calls = calls_in_a_turn(&mut ours).max(calls_in_a_turn(&mut theirs));
        let mut repeats = [(f64::INFINITY, f64::INFINITY); REPEATS];
        for (depth, repeat) in repeats.iter_mut().enumerate() {
            for _ in 0..TURNS {
                repeat.0 = deeper(depth, &mut || turn(calls, &mut ours)).min(repeat.0);
                repeat.1 = deeper(depth, &mut || turn(calls, &mut theirs)).min(repeat.1);
            }
        }
        self.figures.push(Figure {
            name,
            ours: rising(repeats.map(|r| r.0))[REPEATS / 2],
            theirs: rising(repeats.map(|r| r.1))[REPEATS / 2],
            ratios: rising(repeats.map(|r| r.0 / r.1)),
        });
    }
}

/// The numbers in rising order.
pub fn rising(mut numbers: [f64; REPEATS]) -> [f64; REPEATS] {
    numbers.sort_by(f64::total_cmp);
    numbers
}
