//! How long the calls of a column take, through the safe crate: taking, sending, closing, and a whole exchange of all columns (cases.rs).

mod cases;
#[path = "../../models/chance.rs"]
mod chance;
#[path = "../clock.rs"]
mod clock;
mod column;
#[path = "../../models/frames.rs"]
mod frames;
#[path = "../../models/linear.rs"]
mod linear;
#[path = "../../models/register.rs"]
mod register;
mod scenario;

use cases::{CALLS, CASES, Case, EXCHANGED, EXCHANGES, Exchanges, GREATEST, PASSES, Prepared};
use clock::{Timed, warm_up};
use column::Group;
use sajowemi::Column;

calls_of!(sajowemi);

/// Every t that a garage meets with its smallest n, and the greatest group.
#[rustfmt::skip]
const GROUPS: [Group; 6] = [
    Group { n: 4, t: 1, w: 4 },
    Group { n: 4, t: 1, w: 8 },
    Group { n: 7, t: 2, w: 8 },
    Group { n: 16, t: 5, w: 8 },
    Group { n: 31, t: 10, w: 8 },
    Group { n: 32, t: 10, w: 8 },
];

/// A case of a group, and how long its calls took so far.
struct Cell {
    prepared: Prepared<Column>,
    timed: Timed,
}

impl Cell {
    fn new(case: Case, group: Group) -> Cell {
        Cell {
            prepared: Prepared::new(case, group),
            timed: Timed::new(1),
        }
    }

    fn go_on(&mut self) {
        let prepared = &self.prepared;
        self.timed
            .go_on(CALLS / PASSES, &mut [&mut |turn| prepared.time(turn)]);
    }
}

fn time_calls() {
    println!("Microseconds a call, medians of {CALLS}, through the safe Rust crate:");
    println!();
    print!("| Call; n, t, w: |");
    for Group { n, t, w } in GROUPS {
        print!(" {n}, {t}, {w} |");
    }
    println!();
    println!("|{}", "---|".repeat(1 + GROUPS.len()));
    let mut cells: Vec<Vec<Cell>> = CASES
        .iter()
        .map(|case| GROUPS.map(|group| Cell::new(*case, group)).into())
        .collect();
    for _ in 0..PASSES {
        cells.iter_mut().flatten().for_each(Cell::go_on);
    }
    for (case, cells) in CASES.iter().zip(&cells) {
        print!("| {} |", case.name);
        for cell in cells {
            print!(" {:.2} |", cell.timed.medians()[0]);
        }
        println!();
    }
    println!();
}

fn time_exchanges() {
    let Group { n, t, w } = GREATEST;
    println!(
        "A whole exchange of {n} columns (t = {t}, w = {w}), all calls of all columns, milliseconds, medians of {EXCHANGES}:"
    );
    println!();
    println!("| | Milliseconds |");
    println!("|---|---|");
    let mut cells = EXCHANGED.map(|(name, wrong)| {
        let exchanges = Exchanges::<Column>::new(GREATEST, wrong);
        (name, exchanges, Timed::new(1))
    });
    for _ in 0..PASSES {
        for (_, exchanges, timed) in &mut cells {
            timed.go_on(EXCHANGES / PASSES, &mut [&mut |turn| exchanges.time(turn)]);
        }
    }
    for (name, _, timed) in &cells {
        println!("| {name} | {:.2} |", timed.medians()[0] / 1000.0);
    }
}

fn main() {
    warm_up();
    time_calls();
    time_exchanges();
}
