//! Whole exchanges with bad columns, and the level of each good one.

use crate::archive::{self, Column};
use crate::chance::Chance;
use crate::compare::compared;
use crate::group::Group;
use crate::liars::{self, lies};
use crate::model::Levelled;
use crate::shown::shown_record;

/// Groups by n and t, and how many of each.
const GROUPS: [(u32, u32, u32); 13] = [
    (1, 0, 20),
    (2, 0, 60),
    (3, 0, 60),
    (4, 1, 6000),
    (5, 1, 1000),
    (6, 1, 500),
    (7, 2, 3000),
    (8, 2, 1000),
    (10, 3, 1000),
    (13, 4, 200),
    (16, 5, 100),
    (31, 10, 10),
    (32, 10, 10),
];
const RUN: u16 = 513;

impl Group {
    /// Each good column's level against the model's of its own result.
    fn levels(&self) -> Vec<Levelled> {
        let level = |column: &Column| {
            let held = archive::result(column);
            assert_eq!(held.answer, 0, "the result");
            compared("an exchange", column, &held.values, &held.confidences)
        };
        self.good.iter().map(level).collect()
    }

    /// With at most t bad columns no level is refused, and each lies between the lowest and the highest good height.
    fn assert_among_good_heights(&self, levels: &[Levelled]) {
        let (lowest, highest) = self.bounds();
        for (column, found) in self.good.iter().zip(levels) {
            if found.answer != 0 || !(lowest..=highest).contains(&found.level) {
                let case = shown_record(column);
                panic!(
                    "an exchange: {found:?}, good heights from {lowest} to {highest}, of {case}"
                );
            }
        }
    }
}

/// What the exchanges came to: levels with blanks and with confidence 1, refusals where more than t are bad, and groups whose good columns
/// have different levels.
#[derive(Default)]
pub struct Exchanges {
    pub groups: u32,
    pub answers: usize,
    pub among: usize,
    pub with_blanks: usize,
    pub with_doubt: usize,
    pub refused: usize,
    pub apart: u32,
}

impl Exchanges {
    fn add(&mut self, group: &Group, levels: &[Levelled]) {
        let n = group.n as usize;
        let bad = n - group.good.len();
        self.groups += 1;
        self.answers += levels.len();
        if bad <= group.t as usize {
            group.assert_among_good_heights(levels);
            self.among += levels.len();
        }
        for (column, found) in group.good.iter().zip(levels) {
            let confidences = &column.found.confidences[..n];
            let has = |confidence: u8| found.answer == 0 && confidences.contains(&confidence);
            self.with_blanks += usize::from(has(0));
            self.with_doubt += usize::from(has(1));
            self.refused += usize::from(found.answer == 22);
        }
        self.apart += u32::from(levels.iter().any(|found| found.level != levels[0].level));
    }

    /// That the rule was reached: were none of a kind drawn, the comparison would say nothing of it.
    fn assert_reached(&self) {
        let of_each_kind = [self.with_blanks, self.with_doubt, self.refused];
        assert!(
            of_each_kind.iter().all(|&count| count > 0),
            "{of_each_kind:?}"
        );
        assert!(self.apart > 0, "the good columns' levels are all alike");
    }
}

/// Now and then more columns are bad than the group bears: the model is followed all the same.
fn most_bad(chance: &mut Chance, n: u32, t: u32) -> u32 {
    if chance.one_in(8) { n - 1 } else { t }
}

/// Answers what they came to.
pub fn exchanges(chance: &mut Chance) -> Exchanges {
    let mut exchanges = Exchanges::default();
    for (n, t, count) in GROUPS {
        for _ in 0..count {
            let (mut group, liars) =
                liars::group(chance, n, t, RUN, |chance| most_bad(chance, n, t));
            group.exchange(|reader, frames| lies(chance, &liars, reader, frames));
            exchanges.add(&group, &group.levels());
        }
    }
    exchanges.assert_reached();
    exchanges
}

/// An exchange of good columns at these heights and of silent ones.
pub fn worked(
    chance: &mut Chance,
    n: u32,
    t: u32,
    heights: &[i32],
    level: i64,
    corrections: &[i64],
) {
    let good: Vec<(u32, i32)> = (1..).zip(heights.iter().copied()).collect();
    let mut group = Group::open(n, t, RUN, &good);
    group.exchange(|reader, frames| lies(chance, &[], reader, frames));
    let expected: Vec<Levelled> = corrections
        .iter()
        .map(|&correction| Levelled {
            answer: 0,
            level,
            correction,
        })
        .collect();
    assert_eq!(group.levels(), expected, "the exchange of {heights:?}");
}
