//! Check values as they are defined: in each byte plane the remainder by the generator, found without any table.

/// A value, or a check value: one byte for each plane.
pub type Value = Vec<u8>;

const FIRST_ROOT: u32 = 120;
const POLYNOMIAL: u16 = 0x187;

/// The product in the field: polynomials over bits multiplied, then reduced from the top.
pub fn times(a: u8, b: u8) -> u8 {
    let mut product = 0u16;
    for bit in 0..8 {
        product ^= (u16::from(a) << bit) * u16::from(b >> bit & 1);
    }
    for bit in (8..15).rev() {
        product ^= (POLYNOMIAL << (bit - 8)) * (product >> bit & 1);
    }
    product as u8
}

fn power_of_two(exponent: u32) -> u8 {
    (0..exponent).fold(1, |power, _| times(power, 2))
}

/// The product of (x - root) over the first roots; coefficients from the highest power down, the leading 1 included.
pub fn generator(roots: usize) -> Vec<u8> {
    let mut product = vec![1];
    for i in 0..roots {
        let root = power_of_two(FIRST_ROOT + i as u32);
        product.push(0);
        for j in (1..product.len()).rev() {
            product[j] ^= times(product[j - 1], root);
        }
    }
    product
}

/// The check values of vectors with given settings.
pub struct Coder {
    check_count: usize,
    /// For each column k the remainder of x^(255 - k), highest power first. Remainders add up.
    remainders: Vec<Vec<u8>>,
}

impl Coder {
    pub fn new(columns: usize, check_count: usize) -> Coder {
        let divisor = generator(check_count);
        // x to the 0, 1, 2 and so on, each the one before times x, less the generator times what stands above it
        let mut powers = vec![divide_once(
            &divisor,
            &[vec![0; check_count], vec![1]].concat(),
        )];
        for exponent in 1..255 {
            let shifted = [powers[exponent - 1].as_slice(), &[0]].concat();
            powers.push(divide_once(&divisor, &shifted));
        }
        Coder {
            check_count,
            remainders: (1..=columns).map(|k| powers[255 - k].clone()).collect(),
        }
    }

    pub fn checks(&self, vector: &[Value]) -> Vec<Value> {
        let size = vector.first().map_or(0, Vec::len);
        let mut checks = vec![vec![0; size]; self.check_count];
        for (value, remainder) in vector.iter().zip(&self.remainders) {
            for (check, &factor) in checks.iter_mut().zip(remainder) {
                for (sum, &byte) in check.iter_mut().zip(value) {
                    *sum ^= times(byte, factor);
                }
            }
        }
        checks
    }
}

/// A polynomial with one coefficient more than the remainder has, reduced by the generator.
fn divide_once(divisor: &[u8], dividend: &[u8]) -> Vec<u8> {
    let reduced = |(&a, &b): (&u8, &u8)| a ^ times(dividend[0], b);
    dividend[1..]
        .iter()
        .zip(&divisor[1..])
        .map(reduced)
        .collect()
}

#[cfg(test)]
mod tests {
    use super::*;

    fn checks(vector: [u8; 4]) -> Vec<Value> {
        Coder::new(4, 2).checks(&vector.map(|byte| vec![byte]))
    }

    #[test]
    fn products_and_powers() {
        assert_eq!(times(2, 128), 135);
        assert_eq!(power_of_two(255), 1);
        assert!((1..255).all(|exponent| power_of_two(exponent) != 1));
    }

    #[test]
    fn generators() {
        assert_eq!(generator(0), [1]);
        assert_eq!(generator(2), [1, 164, 102]);
    }

    #[test]
    fn worked_check_values() {
        assert_eq!(checks([241, 86, 35, 35]), [[39], [78]]);
        assert_eq!(checks([241, 86, 35, 40]), [[82], [30]]);
        assert_eq!(checks([241, 86, 35, 0]), [[8], [182]]);
    }

    #[test]
    fn codewords_are_zero_at_the_roots() {
        for check_count in 0..=20 {
            let vector: Vec<Value> = (1..=32).map(|k| vec![k * 7]).collect();
            let checks = Coder::new(32, check_count).checks(&vector);
            let mut word = vec![0; 255];
            for (k, value) in vector.iter().enumerate() {
                word[k] = value[0];
            }
            for (c, check) in checks.iter().enumerate() {
                word[255 - check_count + c] = check[0];
            }
            for root in (FIRST_ROOT..).take(check_count).map(power_of_two) {
                assert_eq!(word.iter().fold(0, |sum, &byte| times(sum, root) ^ byte), 0);
            }
        }
    }
}
