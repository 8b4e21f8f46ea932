//! What counts no refused frame: refusals 1 to 8, on records of random bits, and closings.

use crate::archive::{Column, Identity};
use crate::chance::Chance;
use crate::compare::{closed, same};
use crate::counts::{GREATEST, SETTINGS, TOP, handed, records, right_frame};
use std::array::from_fn;

/// The record spoiled for each of the refusals 1 to 4, 6 and 7.
fn spoiled(column: &Column) -> Vec<(u32, Column)> {
    let n = column.who.n;
    let with = |change: &dyn Fn(&mut Column)| {
        let mut spoiled = *column;
        change(&mut spoiled);
        spoiled
    };
    let mut records = vec![(6, with(&|column| column.who.own = [0; 8]))];
    for number in [0, 33, TOP] {
        records.push((1, with(&|column| column.who.n = number)));
        records.push((3, with(&|column| column.who.w = number)));
    }
    for number in [n, TOP] {
        records.push((2, with(&|column| column.who.t = number)));
    }
    for number in [0, n + 1, TOP] {
        records.push((4, with(&|column| column.who.number = number)));
    }
    for number in [0, 4, TOP] {
        records.push((7, with(&|column| column.round = number)));
    }
    records
}

/// An empty frame and a right one, refused 1 to 8 before the frame is looked at: no byte of the record moves.
fn kept(column: &Column, slot: u32, right: &[u8], answer: u32) -> u64 {
    handed(column, slot, &[], answer, column);
    handed(column, slot, right, answer, column);
    2
}

/// 8 in the own slot and beside the group, the other refusals that come before the frame's own in every slot, with counts anywhere and at
/// the top.
pub fn uncounted() -> u64 {
    let mut chance = Chance::new(63);
    let mut calls = 0;
    for settings in SETTINGS {
        for mut column in records(&mut chance, settings, settings == GREATEST) {
            let Identity { n, number, .. } = column.who;
            for counts in [column.refused, [TOP; 32]] {
                column.refused = counts;
                for slot in [number, 0, n + 1, 33, TOP] {
                    let right = right_frame(&column, slot, column.round);
                    calls += kept(&column, slot, &right, 8);
                }
                for (answer, spoiled) in spoiled(&column) {
                    for slot in (0..=33).chain([TOP]) {
                        let right = right_frame(&column, slot, column.round);
                        calls += kept(&spoiled, slot, &right, answer);
                    }
                }
            }
        }
    }
    calls
}

/// Closing keeps every count, done or refused: anywhere, also behind n, one at the top, one below it, and all at it.
pub fn closings() -> u64 {
    let mut chance = Chance::new(64);
    let mut calls = 0;
    for settings in SETTINGS {
        for mut column in records(&mut chance, settings, false) {
            let one_at_top = from_fn(|k| if k == 1 { TOP } else { k as u32 });
            for counts in [column.refused, one_at_top, [TOP - 1; 32], [TOP; 32]] {
                column.refused = counts;
                let mut records = vec![column];
                records.extend(spoiled(&column).into_iter().map(|(_, spoiled)| spoiled));
                for record in &records {
                    let after = closed(record).refused;
                    same("counts after a closing", &after, &counts, record);
                }
                calls += records.len() as u64;
            }
        }
    }
    calls
}
