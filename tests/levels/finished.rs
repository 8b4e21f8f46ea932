//! Finished records over every n, t and count of blanks.

use crate::archive::{Column, Identity};
use crate::chance::Chance;
use crate::compare::compared_record;
use crate::heights::{KINDS, own_height};
use crate::held::{put_confidences, put_heights};
use crate::record::{EMPTY, fill};

/// Records for each n, t, count of blanks and kind of heights: fewer where there are many blanks, which all are refused.
const TIMES: u32 = 40;
const TIMES_WITH_MANY: u32 = 4;

/// Answers how many records have a level, and how many are refused.
pub fn every_count_of_blanks(chance: &mut Chance) -> (u32, u32) {
    let (mut levels, mut refusals) = (0, 0);
    let mut column = EMPTY;
    for n in 1..=32 {
        for t in 0..=(n - 1) / 3 {
            // Behind n columns stand other bytes, and in all that a level does not read.
            fill(&mut column, |bytes| chance.fill(bytes));
            (column.who.n, column.who.t, column.who.w) = (n, t, 4);
            column.round = 4;
            for blank in 0..=n {
                let count = finished_records(chance, &mut column, blank);
                if blank > t {
                    refusals += count;
                } else {
                    levels += count;
                }
            }
        }
    }
    (levels, refusals)
}

/// Records with so many blanks, of heights of every kind: 22 is the answer just where the blanks are more than t. Answers how many they are.
fn finished_records(chance: &mut Chance, column: &mut Column, blank: u32) -> u32 {
    let Identity { n, t, .. } = column.who;
    let answer = if blank > t { 22 } else { 0 };
    let times = if blank > t + 1 {
        TIMES_WITH_MANY
    } else {
        TIMES
    };
    for kind in KINDS {
        for _ in 0..times {
            column.who.number = 1 + chance.below(n.into()) as u32;
            column.who.own[..4].copy_from_slice(&own_height(chance, kind).to_be_bytes());
            put_heights(chance, &mut column.found.values[..4 * n as usize], kind);
            let confidences = &mut column.found.confidences[..n as usize];
            put_confidences(chance, confidences, blank as usize);
            let found = compared_record("a finished record", column);
            assert_eq!(found.answer, answer, "{blank} blanks, n {n}, t {t}");
        }
    }
    times * KINDS.len() as u32
}
