//! Whether levelling comes together as Ask 4 of the change requests promises, through the compiled calls: after one exchange, and over
//! repeated ones in which every good column moves to its level. At most t columns are bad; they lie at random, or split the group, also as
//! far as the promise allows. The first exchange that breaks a promise ends the run.

#[path = "../../rust/src/archive.rs"]
mod archive;
#[path = "../../models/chance.rs"]
mod chance;
#[path = "../../models/frames.rs"]
mod frames;
#[path = "../shared/group.rs"]
mod group;
#[path = "../shared/heights.rs"]
mod heights;
#[path = "../shared/liars.rs"]
mod liars;
mod once;
mod promises;
mod repeated;
#[path = "../shared/shown.rs"]
mod shown;
mod splits;
mod tally;
mod widest;

use chance::Chance;
use once::{any_exchanges, widest_exchanges};
use repeated::{any_sequences, widest_sequences};
use tally::Tally;

/// Groups by n and t, and how many single exchanges and how many sequences of each.
const GROUPS: [(u32, u32, u32, u32); 18] = [
    (1, 0, 20, 5),
    (2, 0, 60, 20),
    (3, 0, 60, 20),
    (4, 1, 3000, 200),
    (5, 1, 1000, 50),
    (6, 1, 500, 50),
    (7, 1, 200, 20),
    (7, 2, 1000, 50),
    (8, 2, 500, 20),
    (10, 2, 100, 10),
    (10, 3, 300, 10),
    (13, 4, 100, 3),
    (16, 5, 50, 2),
    (20, 4, 20, 1),
    (32, 1, 10, 1),
    (22, 7, 10, 1),
    (31, 10, 5, 1),
    (32, 10, 5, 1),
];

fn tallied() -> Tally {
    let (mut chance, mut tally) = (Chance::new(8), Tally::default());
    for (n, t, exchanges, sequences) in GROUPS {
        any_exchanges(&mut chance, &mut tally, n, t, exchanges);
        any_sequences(&mut chance, &mut tally, n, t, sequences);
        // Without bad columns all levels are alike.
        if t > 0 {
            widest_exchanges(&mut chance, &mut tally, n, t, exchanges);
            widest_sequences(&mut chance, &mut tally, n, t, sequences);
        }
    }
    let with_bad = GROUPS.iter().filter(|(_, t, ..)| *t > 0);
    tally.assert_reached(with_bad.count());
    tally
}

fn main() {
    let Tally {
        exchanges,
        pairs,
        widest,
        widest_from_ends,
        settings_from_ends,
        blank_to_some,
        doubted_by_some,
        sequences,
        longest,
        left_at_one,
        grounded,
    } = tallied();
    let (settings, levelled) = (settings_from_ends.len(), sequences - grounded);
    println!(
        "levelling: {exchanges} exchanges with at most t bad columns: no level refused, each between the lowest and the highest good \
         height, {pairs} pairs of them at most half of the spread apart, rounded up, in {widest} exchanges just that far, in \
         {widest_from_ends} of these from both ends of 32 bits, over {settings} settings; a column held at 0 and 1 in {blank_to_some} \
         exchanges, at 1 and 2 in {doubted_by_some}; of {sequences} sequences {levelled} are at most 1 apart after as many exchanges as \
         the first spread has bits, which took up to {longest}, and {left_at_one} stay at 1; {grounded} end at a level of 0, with which \
         opening is refused 6"
    );
}
