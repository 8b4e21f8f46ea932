//! The compiled level against a model of it (Ask 3 of the change requests), in three parts: finished records over every n, t and count of
//! blanks; records of random bits, with every refusal and the refusals in their order; and whole exchanges with bad columns, whose levels
//! must also lie between the lowest and the highest good height. The first difference ends the run.

#[path = "../../rust/src/archive.rs"]
mod archive;
#[path = "../../models/chance.rs"]
mod chance;
mod compare;
mod damaged;
mod exchanges;
mod finished;
#[path = "../../models/frames.rs"]
mod frames;
#[path = "../shared/group.rs"]
mod group;
#[path = "../shared/heights.rs"]
mod heights;
mod held;
#[path = "../shared/liars.rs"]
mod liars;
#[path = "../../models/level.rs"]
mod model;
#[path = "../shared/record.rs"]
mod record;
#[path = "../../models/refusals.rs"]
mod refusals;
#[path = "../shared/shown.rs"]
mod shown;

use chance::Chance;
use exchanges::Exchanges;

const DAMAGED: u32 = 40_000;

fn main() {
    let mut chance = Chance::new(6);
    let (levels, refusals) = finished::every_count_of_blanks(&mut chance);
    let undamaged = damaged::records_of_random_bits(&mut chance, DAMAGED);
    exchanges::worked(&mut chance, 4, 1, &[1000, 1004, 1010], 1005, &[5, 1, -5]);
    exchanges::worked(&mut chance, 2, 0, &[-5, -2], -4, &[1, -2]);
    let exchanges = exchanges::exchanges(&mut chance);
    let Exchanges {
        groups,
        answers,
        among,
        with_blanks,
        with_doubt,
        refused,
        apart,
    } = exchanges;
    println!(
        "levels: as the model has them: {levels} finished records, and {refusals} refused 22, over every n, t and count of blanks; {DAMAGED} \
         records of random bits, {undamaged} of them with a level, the others by the first line that applies; the two worked exchanges; \
         {groups} exchanges with {answers} answers, {with_blanks} of these levels with blanks, {with_doubt} with confidence 1, {refused} refused 22, \
         in {apart} exchanges not all alike; {among} where at most t are bad lie between the lowest and the highest good height"
    );
}
