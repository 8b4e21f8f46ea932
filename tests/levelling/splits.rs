//! Bad columns that split the group: some good columns come to believe their plots, and others do not.

use crate::archive::{Column, Identity};
use crate::chance::Chance;
use crate::group::{Group, Told, checks};
use crate::heights::{KINDS, not_blank, own_height};

/// A bad column's plot, and the good columns that it is made known to in each round: in round one by its own column, in rounds two and
/// three by all bad ones, which have a blank in its place for others.
pub struct Split {
    number: u32,
    plot: [u8; 4],
    known_to: [Vec<u32>; 3],
}

/// All of them in two parts, of which the first has so many.
pub fn parted(chance: &mut Chance, mut numbers: Vec<u32>, count: usize) -> (Vec<u32>, Vec<u32>) {
    chance.shuffle(&mut numbers);
    let rest = numbers.split_off(count);
    (numbers, rest)
}

/// A plot as high as this or higher.
pub fn above(chance: &mut Chance, height: i32) -> i32 {
    not_blank(chance.pick(&[height, height.saturating_add(1), i32::MAX]))
}

/// A plot as low as this or lower.
pub fn below(chance: &mut Chance, height: i32) -> i32 {
    not_blank(chance.pick(&[height, height.saturating_sub(1), i32::MIN]))
}

/// What the bad columns tell a reader: nothing, where no plot is known to it.
pub fn told(splits: &[Split], reader: &Column) -> Told {
    let Identity { number, .. } = reader.who;
    let is_known = |split: &Split| split.known_to[reader.round as usize - 1].contains(&number);
    if reader.round == 1 {
        let known = splits.iter().filter(|split| is_known(split));
        let plot = |split: &Split| (split.number, split.plot.to_vec());
        return known.map(plot).collect();
    }
    if !splits.iter().any(is_known) {
        return vec![];
    }
    let place = |split: &Split| {
        let plot = if is_known(split) { split.plot } else { [0; 4] };
        (split.number, plot)
    };
    let checks = checks(reader, splits.iter().map(place));
    let same = |split: &Split| (split.number, checks.clone());
    splits.iter().map(same).collect()
}

impl Group {
    pub fn numbers(&self) -> Vec<u32> {
        self.good.iter().map(|column| column.who.number).collect()
    }

    pub fn bad(&self) -> Vec<u32> {
        let good = self.numbers();
        (1..=self.n).filter(|k| !good.contains(k)).collect()
    }

    /// A split after which the believers hold the plot at this confidence, 1 or 2, and the other good columns at one less.
    pub fn split(
        &self,
        chance: &mut Chance,
        number: u32,
        plot: i32,
        believers: &[u32],
        confidence: usize,
    ) -> Split {
        let (n, t) = (self.n as usize, self.t as usize);
        let some_of_at_most = |chance: &mut Chance, most: usize| {
            let fewer = chance.below((n - self.good.len()) as u64) as usize;
            parted(chance, self.numbers(), most - fewer).0
        };
        // Y has a value that is found n - t times: here only where the bad rows have it too.
        let told = some_of_at_most(chance, n - t - 1);
        // Found t + 1 times gives confidence 1, and 2t + 1 times 2: here again only with the bad rows.
        let agreed = some_of_at_most(chance, confidence * t);
        Split {
            number,
            plot: plot.to_be_bytes(),
            known_to: [told, agreed, believers.to_vec()],
        }
    }

    /// Splits by all bad columns, with plots above, below and among the good heights, and mostly with the same believers.
    pub fn any_splits(&self, chance: &mut Chance) -> Vec<Split> {
        let any_part = |chance: &mut Chance| {
            let count = chance.below(self.good.len() as u64 + 1) as usize;
            parted(chance, self.numbers(), count).0
        };
        let (lowest, highest) = self.ends();
        let (side, common) = (chance.below(4), any_part(chance));
        let split = |number| {
            let other = chance.below(4);
            let plot = match chance.pick(&[side, side, other]) {
                0 => above(chance, highest),
                1 => below(chance, lowest),
                2 => chance.pick(&self.heights),
                _ => own_height(chance, KINDS[0]),
            };
            let believers = if chance.one_in(3) {
                any_part(chance)
            } else {
                common.clone()
            };
            let confidence = chance.pick(&[1, 1, 2]);
            self.split(chance, number, plot, &believers, confidence)
        };
        self.bad().into_iter().map(split).collect()
    }
}
