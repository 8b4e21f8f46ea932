//! The calls of a column as an older archive has them beside this one's, in turn: first whether both answer alike, leave the same records
//! and write the same frames, then how long they take (cases.rs). The older archive is linked as a crate of its own, `before`.

mod cases;
#[path = "../../models/chance.rs"]
mod chance;
#[path = "../clock.rs"]
mod clock;
mod column;
#[path = "../../models/frames.rs"]
mod frames;
#[path = "../../models/linear.rs"]
mod linear;
#[path = "../../models/register.rs"]
mod register;
mod scenario;

use cases::{
    CALLS, CASES, CLOSE_TWO, CLOSE_TWO_OFF, Case, EXCHANGED, EXCHANGES, Exchanges, GREATEST,
    INPUTS, PASSES, Prepared, SMALLEST,
};
use clock::{Timed, warm_up};
use column::{Calls, Fields, Group};
use scenario::Wrong;

calls_of!(before);
calls_of!(sajowemi);

fn print_line(Group { n, t, w }: Group, name: &str, times: &[f64]) {
    let (before, after) = (times[0], times[1]);
    let ratio = after / before;
    println!("| {n}, {t}, {w} | {name} | {before:.2} | {after:.2} | {ratio:.2} |");
}

/// A case of a group in both states, and how long the calls took so far.
struct Call {
    case: Case,
    group: Group,
    before: Prepared<before::Column>,
    after: Prepared<sajowemi::Column>,
    timed: Timed,
}

impl Call {
    /// Asserts that both states answer alike, leave the same records and write the same frames.
    fn new(case: Case, group: Group) -> Call {
        let before = Prepared::<before::Column>::new(case, group);
        let after = Prepared::<sajowemi::Column>::new(case, group);
        for ((answers, column, frame), now) in before.outcomes().zip(after.outcomes()) {
            assert!(answers.iter().all(|answer| *answer == 0), "{}", case.name);
            assert_eq!((answers, frame), (now.0, now.2), "{}", case.name);
            assert!(column.fields() == now.1.fields(), "{}: records", case.name);
        }
        Call {
            case,
            group,
            before,
            after,
            timed: Timed::new(2),
        }
    }

    fn go_on(&mut self) {
        let (before, after) = (&self.before, &self.after);
        self.timed.go_on(
            CALLS / PASSES,
            &mut [&mut |turn| before.time(turn), &mut |turn| after.time(turn)],
        );
    }
}

/// Whole exchanges in both states, and how long they took so far.
struct Exchange {
    name: &'static str,
    before: Exchanges<before::Column>,
    after: Exchanges<sajowemi::Column>,
    timed: Timed,
}

impl Exchange {
    /// Asserts that all columns are the same at the end of every exchange, and end with the same.
    fn new(name: &'static str, wrong: Wrong) -> Exchange {
        let mut before = Exchanges::<before::Column>::new(GREATEST, wrong);
        let mut after = Exchanges::<sajowemi::Column>::new(GREATEST, wrong);
        for turn in 0..INPUTS {
            before.time(turn);
            after.time(turn);
            for (column, now) in before.columns().iter().zip(after.columns()) {
                assert!(column.fields() == now.fields(), "exchange: records");
                assert_eq!(column.ended(), now.ended(), "exchange: results");
            }
        }
        Exchange {
            name,
            before,
            after,
            timed: Timed::new(2),
        }
    }

    fn go_on(&mut self) {
        let (before, after) = (&mut self.before, &mut self.after);
        self.timed.go_on(
            EXCHANGES / PASSES,
            &mut [&mut |turn| before.time(turn), &mut |turn| after.time(turn)],
        );
    }
}

fn main() {
    warm_up();
    println!(
        "Microseconds a call through the safe Rust crate, medians of {CALLS}, and milliseconds of whole exchanges, medians of {EXCHANGES}, in turn; answers, records, frames and results are the same byte for byte:"
    );
    println!();
    println!("| n, t, w | call | before | after | after / before |");
    println!("|---|---|---|---|---|");
    let greatest = CASES.map(|case| Call::new(case, GREATEST));
    let smallest = [CLOSE_TWO, CLOSE_TWO_OFF].map(|case| Call::new(case, SMALLEST));
    let mut calls: Vec<Call> = greatest.into_iter().chain(smallest).collect();
    let mut exchanges = EXCHANGED.map(|(name, wrong)| Exchange::new(name, wrong));
    for _ in 0..PASSES {
        calls.iter_mut().for_each(Call::go_on);
        exchanges.iter_mut().for_each(Exchange::go_on);
    }
    for call in &calls {
        print_line(call.group, call.case.name, &call.timed.medians());
    }
    for exchange in &exchanges {
        let times: Vec<f64> = exchange
            .timed
            .medians()
            .iter()
            .map(|time| time / 1000.0)
            .collect();
        print_line(
            GREATEST,
            &format!("exchange, milliseconds: {}", exchange.name),
            &times,
        );
    }
}
