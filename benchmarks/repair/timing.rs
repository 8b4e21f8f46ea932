//! Programs on the same inputs: whether they answer alike, and how long they take.
//!
//! One run, interleaved: a round times every program once in every case, on the same eight inputs one after the other,
//! after one call that is not timed. The figure is the median over the rounds of the time for one call. Inputs are prepared
//! beforehand. Each program has an output buffer of its own, which is lent again and again and not cleared.

use crate::cases::{Case, Input};
use crate::chance::Chance;
use crate::clock::median;
use std::hint::black_box;
use std::time::Instant;

pub const ROUNDS: usize = 2000;
pub const IN_A_ROW: usize = 8;
const INPUTS: usize = 64;

/// The answer, how many places were changed, and how many were tried in each plane: zeros for check values.
pub type Answer = (u32, u32, [u8; 8]);

pub struct Program<'a> {
    pub name: &'static str,
    pub run: &'a dyn Fn(&Input, &mut [u8]) -> Answer,
}

/// Asserts the same answer and output of all programs, and hands back the answer.
pub fn assert_alike(programs: &[Program], input: &Input) -> Answer {
    let answers: Vec<(Answer, [u8; 300])> = programs
        .iter()
        .map(|program| {
            let mut output = [0xa5; 300];
            let answer = (program.run)(input, &mut output[..input.n * input.w + 20]);
            (answer, output)
        })
        .collect();
    for (program, answer) in programs.iter().zip(&answers) {
        assert!(
            *answer == answers[0],
            "{} and {} differ: n = {}, t = {}, w = {}, vector {:?}, checks {:?}",
            programs[0].name,
            program.name,
            input.n,
            input.t,
            input.w,
            input.vector,
            input.checks
        );
    }
    answers[0].0
}

/// Microseconds of one call, for each case and program.
fn time(programs: &[Program], cases: &[Vec<Input>]) -> Vec<Vec<f64>> {
    let mut outputs = vec![[0; 256]; programs.len()];
    let mut times = vec![vec![Vec::with_capacity(ROUNDS); programs.len()]; cases.len()];
    for round in 0..ROUNDS {
        let from = round * IN_A_ROW % INPUTS;
        for (inputs, times) in cases.iter().zip(&mut times) {
            for i in 0..programs.len() {
                let which = (round + i) % programs.len();
                let (run, output) = (programs[which].run, &mut outputs[which]);
                black_box(run(black_box(&inputs[from]), black_box(output)));
                let begin = Instant::now();
                for input in &inputs[from..from + IN_A_ROW] {
                    black_box(run(black_box(input), black_box(output)));
                }
                times[which].push(begin.elapsed().as_secs_f64() * 1e6 / IN_A_ROW as f64);
            }
        }
    }
    times
        .into_iter()
        .map(|case| case.into_iter().map(median).collect())
        .collect()
}

/// Asserts that all programs answer each case as it must be, and prints their times: the settings, the times of each program, and how many
/// times as long as the first the others take.
pub fn print_table(programs: &[Program], cases: &[Case], digits: usize, chance: &mut Chance) {
    let inputs: Vec<Vec<Input>> = cases
        .iter()
        .map(|case| (0..INPUTS).map(|_| Input::new(chance, case)).collect())
        .collect();
    for (case, inputs) in cases.iter().zip(&inputs) {
        for input in inputs {
            let (answer, _, _) = assert_alike(programs, input);
            assert_eq!(answer, if case.is_none() { 256 } else { 0 }, "{case}");
        }
    }
    print!("| n | t | w | wrong in each plane |");
    for program in programs {
        print!(" {} |", program.name);
    }
    for program in &programs[1..] {
        print!(" {} / {} |", program.name, programs[0].name);
    }
    println!();
    println!("|{}", "---|".repeat(3 + 2 * programs.len()));
    for (case, times) in cases.iter().zip(time(programs, &inputs)) {
        print!("| {case} |");
        for time in &times {
            print!(" {time:.2} |");
        }
        for time in &times[1..] {
            print!(" {:.digits$} |", time / times[0]);
        }
        println!();
    }
    println!();
}
