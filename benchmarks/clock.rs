//! Times of programs that take turns, and their medians.

use std::hint::black_box;
use std::time::{Duration, Instant};

/// Keeps the core at work for as long as its speed may take to settle.
pub fn warm_up() {
    let begin = Instant::now();
    let mut word = 1u64;
    while begin.elapsed() < Duration::from_secs(2) {
        word = black_box(word.wrapping_mul(0x9e37_79b9_7f4a_7c15) ^ word >> 7);
    }
}

/// Microseconds that the work takes.
pub fn microseconds<T>(work: impl FnOnce() -> T) -> f64 {
    let begin = Instant::now();
    black_box(work());
    begin.elapsed().as_secs_f64() * 1e6
}

pub fn median(mut times: Vec<f64>) -> f64 {
    times.sort_by(f64::total_cmp);
    times[times.len() / 2]
}

/// What programs that take turns say that they took. In each turn every program runs twice, and the second time counts; who is first goes
/// round.
pub struct Timed {
    turns: usize,
    times: Vec<Vec<f64>>,
}

impl Timed {
    pub fn new(programs: usize) -> Timed {
        Timed {
            turns: 0,
            times: vec![Vec::new(); programs],
        }
    }

    /// So many turns more.
    pub fn go_on(&mut self, turns: usize, programs: &mut [&mut dyn FnMut(usize) -> f64]) {
        for turn in self.turns..self.turns + turns {
            for i in 0..programs.len() {
                let which = (turn + i) % programs.len();
                programs[which](turn);
                self.times[which].push(programs[which](turn));
            }
        }
        self.turns += turns;
    }

    pub fn medians(&self) -> Vec<f64> {
        self.times.iter().cloned().map(median).collect()
    }
}

/// The medians over so many turns at one go.
pub fn in_turn(turns: usize, programs: &mut [&mut dyn FnMut(usize) -> f64]) -> Vec<f64> {
    let mut timed = Timed::new(programs.len());
    timed.go_on(turns, programs);
    timed.medians()
}
