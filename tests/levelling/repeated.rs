//! Repeated exchanges: every good column moves to its level and opens the next exchange with it.

use crate::archive;
use crate::chance::Chance;
use crate::group::Group;
use crate::once::{any_exchange, any_group};
use crate::promises::{fail, half, promised_levels, spread};
use crate::splits::told;
use crate::tally::Tally;
use crate::widest::{any_ends, at_two_heights, kept_apart};

/// Exchanges after those in which the spread must have come down to 1.
const MORE: usize = 3;

fn bits(number: i64) -> usize {
    (i64::BITS - number.leading_zeros()) as usize
}

/// The group of the next exchange. None where a level is 0, which is blank: opening refuses it.
fn moved(group: &Group, levels: &[i64]) -> Option<Group> {
    let Group { n, t, run, .. } = *group;
    let run = run.wrapping_add(1);
    let heights = levels.iter().map(|&level| i32::try_from(level).unwrap());
    let good: Vec<(u32, i32)> = group.numbers().into_iter().zip(heights).collect();
    let grounded = good.iter().filter(|(_, height)| *height == 0);
    for (number, height) in grounded.clone() {
        let opened = archive::open(n, t, 4, *number, run, &height.to_be_bytes());
        assert_eq!(opened.answer, 6, "opening at height 0");
    }
    (grounded.count() == 0).then(|| Group::open(n, t, run, &good))
}

/// A sequence so far: the bounds of the first heights, and the spread before the first exchange and after each.
struct Sequence {
    bounds: (i64, i64),
    spreads: Vec<i64>,
}

impl Sequence {
    fn new(group: &Group) -> Sequence {
        let bounds = group.bounds();
        let spreads = vec![bounds.1 - bounds.0];
        Sequence { bounds, spreads }
    }

    /// Adds the levels after an exchange, and asserts what is promised of them.
    fn add(&mut self, group: &Group, levels: &[i64]) {
        let (lowest, highest) = self.bounds;
        let before = self.spreads[self.spreads.len() - 1];
        let now = spread(levels);
        self.spreads.push(now);
        let spreads = &self.spreads;
        if !levels
            .iter()
            .all(|level| (lowest..=highest).contains(level))
        {
            fail(
                group,
                &format!("a level out of the first {lowest}..={highest}"),
            );
        }
        if now > half(before) {
            fail(group, &format!("more than half is left: {spreads:?}"));
        }
        if spreads.len() > bits(spreads[0]) && now > 1 {
            fail(group, &format!("more than 1 is left: {spreads:?}"));
        }
    }
}

/// Answers the spread before the first exchange and after each.
fn repeat(tally: &mut Tally, mut group: Group, mut exchange: impl FnMut(&mut Group)) -> Vec<i64> {
    let mut sequence = Sequence::new(&group);
    let most = bits(sequence.spreads[0]) + MORE;
    while sequence.spreads.len() <= most {
        exchange(&mut group);
        let levels = promised_levels(&group);
        tally.add(&group, &levels);
        sequence.add(&group, &levels);
        let Some(next) = moved(&group, &levels) else {
            tally.grounded += 1;
            break;
        };
        group = next;
    }
    let Sequence { spreads, .. } = sequence;
    let to_one = spreads.iter().position(|&spread| spread <= 1);
    tally.sequences += 1;
    tally.longest = tally.longest.max(to_one.unwrap_or(0));
    tally.left_at_one += u32::from(spreads.ends_with(&[1; MORE + 1]));
    spreads
}

/// From random heights, with bad columns that do something else in each exchange.
pub fn any_sequences(chance: &mut Chance, tally: &mut Tally, n: u32, t: u32, count: u32) {
    for _ in 0..count {
        let (group, liars) = any_group(chance, n, t);
        repeat(tally, group, |group| any_exchange(chance, group, &liars));
    }
}

/// With bad columns that keep the spread as large as promised at most, the first time from both ends of 32 bits.
pub fn widest_sequences(chance: &mut Chance, tally: &mut Tally, n: u32, t: u32, count: u32) {
    let mut ends = (i32::MIN, i32::MAX);
    for _ in 0..count {
        let group = at_two_heights(chance, n, t, ends);
        let spreads = repeat(tally, group, |group| {
            let splits = kept_apart(chance, group);
            group.exchange(|reader, _| told(&splits, reader));
        });
        let halved = |pair: &[i64]| pair[1] == half(pair[0]);
        assert!(
            spreads.windows(2).all(halved),
            "not kept apart: {spreads:?}"
        );
        ends = any_ends(chance);
    }
}
