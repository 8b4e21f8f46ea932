//! Check values by the textbook's register, a plane after the other: the generator once for each call, products by logarithms, and a
//! step for each place down to the checks, used or not.

use crate::linear::{log, power, times};

const FIRST_ROOT: usize = 120;

/// The generator for 2t roots, highest coefficient first, the leading 1 left out; as logarithms.
fn generator(t: usize) -> Vec<usize> {
    let mut polynomial = vec![1u8];
    for i in 0..2 * t {
        polynomial.push(0);
        for j in (1..polynomial.len()).rev() {
            polynomial[j] ^= times(polynomial[j - 1], log(power(FIRST_ROOT + i)));
        }
    }
    polynomial[1..].iter().map(|&byte| log(byte)).collect()
}

pub fn check_values(n: usize, t: usize, w: usize, vector: &[u8], output: &mut [u8]) -> u32 {
    let generator = generator(t);
    for p in 0..w {
        let mut register = [0; 21];
        for place in 0..255 - 2 * t {
            let byte = if place < n { vector[place * w + p] } else { 0 };
            let feedback = byte ^ register[0];
            for c in 0..2 * t {
                register[c] = register[c + 1] ^ times(feedback, generator[c]);
            }
        }
        for c in 0..2 * t {
            output[c * w + p] = register[c];
        }
    }
    0
}
