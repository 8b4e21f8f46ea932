//! How the cost of a column's calls grows with the group: taking, closing round two, and a whole exchange, over n from 4 to 32 with the
//! greatest t and w = 8, beside a plain Rust column that repairs by linear equations (models/plain_column.rs). Both must answer alike.
//!
//! The whole table is measured three times over, with a third of the calls each time, and each figure is the median of three medians, so that
//! a while in which the machine is slow leaves no trace. Standard output is a table with tabs between its cells, in microseconds, which
//! growth.py reads.

mod alike;
#[path = "../calls/cases.rs"]
mod cases;
#[path = "../../models/chance.rs"]
mod chance;
#[path = "../clock.rs"]
mod clock;
#[path = "../calls/column.rs"]
mod column;
#[path = "../../models/frames.rs"]
mod frames;
#[path = "../../models/linear.rs"]
mod linear;
mod plain;
#[path = "../../models/plain_column.rs"]
mod plain_column;
#[path = "../../models/register.rs"]
mod register;
#[path = "../calls/scenario.rs"]
mod scenario;
#[path = "../../models/words.rs"]
mod words;

use cases::{
    CALLS, CLOSE_TWO, CLOSE_TWO_OFF, Case, EXCHANGES, Exchanges, INPUTS, Prepared, TAKE_CHECKS,
};
use clock::{in_turn, median, warm_up};
use column::{Calls, Group};
use plain_column::PlainColumn;
use sajowemi::Column;
use scenario::Wrong;

calls_of!(sajowemi);

/// What each column of the table is of, but for the program.
const HEADINGS: [&str; 5] = [
    "take checks",
    "close round two, all agree",
    "close round two, t vectors",
    "exchange, all good",
    "exchange, t bad, t vectors",
];

const PASSES: usize = 3;

/// The times of both programs, which must answer alike.
fn time_call(case: Case, group: Group) -> Vec<f64> {
    let library = Prepared::<Column>::new(case, group);
    let plain = Prepared::<PlainColumn>::new(case, group);
    for ((answers, _, frame), other) in library.outcomes().zip(plain.outcomes()) {
        assert_eq!((answers, frame), (other.0, other.2), "{}", case.name);
    }
    in_turn(
        CALLS / PASSES + 1,
        &mut [&mut |turn| library.time(turn), &mut |turn| plain.time(turn)],
    )
}

/// The same of whole exchanges, after each of which all columns must end with the same.
fn time_exchanges(group: Group, wrong: Wrong) -> Vec<f64> {
    let mut library = Exchanges::<Column>::new(group, wrong);
    let mut plain = Exchanges::<PlainColumn>::new(group, wrong);
    for turn in 0..INPUTS {
        library.time(turn);
        plain.time(turn);
        for (column, other) in library.columns().iter().zip(plain.columns()) {
            assert_eq!(column.ended(), other.ended(), "exchange of {}", group.n);
        }
    }
    in_turn(
        EXCHANGES / PASSES + 1,
        &mut [&mut |turn| library.time(turn), &mut |turn| plain.time(turn)],
    )
}

/// A line of the table, but for n and t.
fn measured(group: Group) -> Vec<f64> {
    let times = [
        time_call(TAKE_CHECKS, group),
        time_call(CLOSE_TWO, group),
        time_call(CLOSE_TWO_OFF, group),
        time_exchanges(group, Wrong::Nothing),
        time_exchanges(group, Wrong::DifferentVectors),
    ];
    times.concat()
}

fn main() {
    eprintln!("{}", alike::compared::<Column, PlainColumn>());
    warm_up();
    let groups = (4..=32).map(|n| Group {
        n,
        t: (n - 1) / 3,
        w: 8,
    });
    let passes: Vec<Vec<Vec<f64>>> = (0..PASSES)
        .map(|_| groups.clone().map(measured).collect())
        .collect();
    print!("n\tt");
    for heading in HEADINGS {
        print!("\tlibrary: {heading}\tplain: {heading}");
    }
    println!();
    for (line, Group { n, t, .. }) in groups.enumerate() {
        print!("{n}\t{t}");
        for cell in 0..2 * HEADINGS.len() {
            let time = median(passes.iter().map(|pass| pass[line][cell]).collect());
            print!("\t{time:.3}");
        }
        println!();
    }
}
