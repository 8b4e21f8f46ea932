//! One exchange at a time.

use crate::chance::Chance;
use crate::group::Group;
use crate::liars::{self, Liar, lies};
use crate::promises::{fail, half, promised_levels, spread};
use crate::splits::told;
use crate::tally::Tally;
use crate::widest::widest;

/// The liars lie at random, or all bad columns split the group in some way.
pub fn any_exchange(chance: &mut Chance, group: &mut Group, liars: &[Liar]) {
    if chance.one_in(2) {
        group.exchange(|reader, frames| lies(chance, liars, reader, frames));
    } else {
        let splits = group.any_splits(chance);
        group.exchange(|reader, _| told(&splits, reader));
    }
}

pub fn any_group(chance: &mut Chance, n: u32, t: u32) -> (Group, Vec<Liar>) {
    let run = chance.word() as u16;
    liars::group(chance, n, t, run, |_| t)
}

/// Groups of random heights.
pub fn any_exchanges(chance: &mut Chance, tally: &mut Tally, n: u32, t: u32, count: u32) {
    for _ in 0..count {
        let (mut group, liars) = any_group(chance, n, t);
        any_exchange(chance, &mut group, &liars);
        tally.add(&group, &promised_levels(&group));
    }
}

/// Groups whose levels must come to be as far apart as promised at most.
pub fn widest_exchanges(chance: &mut Chance, tally: &mut Tally, n: u32, t: u32, count: u32) {
    for _ in 0..count {
        let (mut group, splits) = widest(chance, n, t);
        group.exchange(|reader, _| told(&splits, reader));
        let levels = promised_levels(&group);
        let (lowest, highest) = group.bounds();
        if spread(&levels) != half(highest - lowest) {
            fail(&group, "the bad columns did not bring the levels apart");
        }
        tally.add(&group, &levels);
    }
}
