//! Buffers of every length in every round.

use crate::archive::{Column, Identity};
use crate::compare::sent;
use crate::division;
use crate::taking::rounds;

pub fn all_buffers(n: u32, t: u32, w: u32) -> u64 {
    for column in rounds(n, t, w, n, [1, 2]) {
        let operand = operand(&column);
        for room in 0..=200 {
            sent(&column, room, Some(&operand));
        }
    }
    4 * 201
}

/// The operand of a record's frame, worked out by the model's coder: the own value, the checks of V, the checks of Y.
fn operand(column: &Column) -> Vec<u8> {
    let Identity { n, t, w, own, .. } = column.who;
    let (size, bad, width) = ((n * w) as usize, t as usize, w as usize);
    match column.round {
        1 => own[..width].to_vec(),
        2 => division::check_values(&column.found.heard[..size], bad, width),
        _ => division::check_values(&column.found.agreed[..size], bad, width),
    }
}
