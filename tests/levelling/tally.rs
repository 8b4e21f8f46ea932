//! What the exchanges came to, by which it is seen that they reach what the promises are about.

use crate::group::Group;
use crate::promises::{half, spread};
use std::collections::BTreeSet;

#[derive(Default)]
pub struct Tally {
    pub exchanges: u32,
    /// Of two different good columns each.
    pub pairs: usize,
    /// Exchanges after which two levels are as far apart as promised at most.
    pub widest: u32,
    /// Those of them that began at both ends of 32 bits, and their settings.
    pub widest_from_ends: u32,
    pub settings_from_ends: BTreeSet<(u32, u32)>,
    /// Exchanges after which good columns hold a column at confidences 0 and 1, and at 1 and 2.
    pub blank_to_some: u32,
    pub doubted_by_some: u32,
    pub sequences: u32,
    /// The most exchanges that a spread took to come down to 1 or 0.
    pub longest: usize,
    /// Sequences at whose end it had been 1 for some exchanges.
    pub left_at_one: u32,
    /// Sequences that ended with a level of 0.
    pub grounded: u32,
}

fn is_held_at_both(group: &Group, one: u8, other: u8) -> bool {
    (0..group.n as usize).any(|k| {
        let at = |confidence| {
            let mut good = group.good.iter();
            good.any(|column| column.found.confidences[k] == confidence)
        };
        at(one) && at(other)
    })
}

impl Tally {
    pub fn add(&mut self, group: &Group, levels: &[i64]) {
        let (lowest, highest) = group.bounds();
        let before = highest - lowest;
        self.exchanges += 1;
        self.pairs += levels.len() * (levels.len() - 1) / 2;
        self.blank_to_some += u32::from(is_held_at_both(group, 0, 1));
        self.doubted_by_some += u32::from(is_held_at_both(group, 1, 2));
        if before == 0 || spread(levels) < half(before) {
            return;
        }
        self.widest += 1;
        if before == u32::MAX.into() {
            self.widest_from_ends += 1;
            self.settings_from_ends.insert((group.n, group.t));
        }
    }

    /// That the bad columns did all they can, in so many settings: were nothing of a kind seen, the promises would be easy to keep.
    pub fn assert_reached(&self, settings: usize) {
        let of_each_kind = [
            self.widest,
            self.blank_to_some,
            self.doubted_by_some,
            self.left_at_one,
            self.grounded,
        ];
        assert!(
            of_each_kind.iter().all(|&count| count > 0),
            "{of_each_kind:?}"
        );
        assert_eq!(self.settings_from_ends.len(), settings, "widest settings");
        assert_eq!(self.longest, 32, "exchanges from both ends of 32 bits");
    }
}
