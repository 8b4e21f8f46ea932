//! Heights of every kind, drawn.

use crate::chance::Chance;

/// Draws a height.
pub type Kind = fn(&mut Chance) -> i32;

/// Any, at the ends of 32 bits, on both sides of zero, tied, negative, and those of a lift.
pub const KINDS: [Kind; 6] = [
    |chance| chance.word() as i32,
    |chance| chance.pick(&[i32::MIN, i32::MIN + 1, i32::MAX - 1, i32::MAX]),
    |chance| chance.below(7) as i32 - 3,
    |chance| chance.pick(&[-1004, -1000, 1000, 1004]),
    |chance| -1 - chance.below(60_000) as i32,
    |chance| chance.below(18_000) as i32,
];

/// One that can be a column's own: 0 is blank.
pub fn not_blank(height: i32) -> i32 {
    if height == 0 { 1 } else { height }
}

pub fn own_height(chance: &mut Chance, kind: Kind) -> i32 {
    not_blank(kind(chance))
}
