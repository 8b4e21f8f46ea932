//! Check values by the book: a word of 255 bytes, divided by the generator one coefficient after the other.

/// Product of two field elements, by shifts, modulo x^8 + x^7 + x^2 + x + 1.
pub fn product(a: u8, b: u8) -> u8 {
    let mut sum = 0u32;
    for bit in 0..8 {
        if b >> bit & 1 == 1 {
            sum ^= u32::from(a) << bit;
        }
    }
    for bit in (8..16).rev() {
        if sum >> bit & 1 == 1 {
            sum ^= 0x187 << (bit - 8);
        }
    }
    sum as u8
}

/// The generator for `count` roots, the powers of 2 from the 120th on, highest coefficient first.
pub fn generator(count: usize) -> Vec<u8> {
    let mut root = (0..120).fold(1, |power, _| product(power, 2));
    let mut polynomial = vec![1u8];
    for _ in 0..count {
        let mut longer = polynomial.clone();
        longer.push(0);
        for (k, &coefficient) in polynomial.iter().enumerate() {
            longer[k + 1] ^= product(coefficient, root);
        }
        polynomial = longer;
        root = product(root, 2);
    }
    polynomial
}

/// The check bytes of a plane: column k is the coefficient of x^(255-k), the checks are those of the powers below 2t.
pub fn check_bytes(plane: &[u8], t: usize) -> Vec<u8> {
    let generator = generator(2 * t);
    let mut word = [0u8; 255];
    word[..plane.len()].copy_from_slice(plane);
    for k in 0..255 - 2 * t {
        let factor = word[k];
        for (j, &coefficient) in generator.iter().enumerate() {
            word[k + j] ^= product(factor, coefficient);
        }
    }
    // Coefficient x^(255-k) stands at k-1: the last 2t of x^254 to x^0 are the remainder.
    word[255 - 2 * t..].to_vec()
}

/// The check values of n values of w bytes, one value after the other.
pub fn check_values(vector: &[u8], t: usize, w: usize) -> Vec<u8> {
    let mut checks = vec![0; 2 * t * w];
    for p in 0..w {
        let plane: Vec<u8> = vector.iter().skip(p).step_by(w).copied().collect();
        for (c, byte) in check_bytes(&plane, t).into_iter().enumerate() {
            checks[c * w + p] = byte;
        }
    }
    checks
}
