//! What a record holds, drawn: confidences and heights.

use crate::chance::Chance;
use crate::heights::Kind;

/// Confidences of which so many are 0, in any places. A damaged record has others than 1 and 2, which are above 0 too.
pub fn put_confidences(chance: &mut Chance, confidences: &mut [u8], blank: usize) {
    for (k, confidence) in confidences.iter_mut().enumerate() {
        *confidence = match chance.below(16) {
            _ if k < blank => 0,
            0 => 1 + chance.below(255) as u8,
            _ => chance.pick(&[1, 2]),
        };
    }
    chance.shuffle(confidences);
}

/// Blanks keep heights in their places, which must not count.
pub fn put_heights(chance: &mut Chance, values: &mut [u8], kind: Kind) {
    for value in values.chunks_mut(4) {
        value.copy_from_slice(&kind(chance).to_be_bytes());
    }
}
