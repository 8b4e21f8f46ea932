//! Check values with all byte planes of a value side by side in one word: for each column the remainder of its power of x stands in a table,
//! and a word's multiples by all numbers of four bits, low and high, are worked out once for all its products.

const MOST_BAD: usize = 10;
const COLUMNS: usize = 32;
const FIRST_ROOT: usize = 120;

/// A value's bytes from the highest of the word down, zeros behind them: words are in order as the bytes are.
pub type Word = u64;

pub fn word_of(bytes: &[u8]) -> Word {
    let mut padded = [0; 8];
    padded[..bytes.len()].copy_from_slice(bytes);
    Word::from_be_bytes(padded)
}

const fn product(a: u8, b: u8) -> u8 {
    let (mut sum, mut bit) = (0u16, 8);
    while bit > 0 {
        bit -= 1;
        sum = (sum << 1) ^ ((sum >> 7 & 1) * 0x187) ^ ((b >> bit & 1) as u16 * a as u16);
    }
    sum as u8
}

const fn power(base: u8, exponent: usize) -> u8 {
    let (mut result, mut i) = (1, 0);
    while i < exponent {
        result = product(result, base);
        i += 1;
    }
    result
}

/// The generator's coefficients of the powers below 2t, lowest first.
const fn generator(t: usize) -> [u8; 2 * MOST_BAD + 1] {
    let mut polynomial = [0; 2 * MOST_BAD + 1];
    polynomial[0] = 1;
    let mut i = 0;
    while i < 2 * t {
        let root = power(2, FIRST_ROOT + i);
        let mut j = i + 1;
        while j > 0 {
            polynomial[j] = polynomial[j - 1] ^ product(polynomial[j], root);
            j -= 1;
        }
        polynomial[0] = product(polynomial[0], root);
        i += 1;
    }
    polynomial
}

/// The remainder of x^(255 - k) for column k, highest power first. x^255 leaves 1, and each is the one before divided by x.
const fn remainders(t: usize) -> [[u8; 2 * MOST_BAD]; COLUMNS] {
    let generator = generator(t);
    let inverse = power(generator[0], 254);
    let mut rest = [0; 2 * MOST_BAD + 1];
    rest[0] = 1;
    let mut table = [[0; 2 * MOST_BAD]; COLUMNS];
    let mut k = 0;
    while t > 0 && k < COLUMNS {
        let factor = product(rest[0], inverse);
        let mut j = 0;
        while j < 2 * t {
            rest[j] = rest[j + 1] ^ product(factor, generator[j + 1]);
            table[k][2 * t - 1 - j] = rest[j];
            j += 1;
        }
        k += 1;
    }
    table
}

static REMAINDERS: [[[u8; 2 * MOST_BAD]; COLUMNS]; MOST_BAD + 1] = {
    let mut tables = [[[0; 2 * MOST_BAD]; COLUMNS]; MOST_BAD + 1];
    let mut t = 0;
    while t <= MOST_BAD {
        tables[t] = remainders(t);
        t += 1;
    }
    tables
};

#[inline(always)]
fn twice(word: Word) -> Word {
    (word & 0x7f7f_7f7f_7f7f_7f7f) << 1 ^ (word >> 7 & 0x0101_0101_0101_0101) * 0x87
}

/// The multiples of a word by 0 to 15.
#[inline(always)]
fn multiples(word: Word) -> [Word; 16] {
    let mut table = [0; 16];
    let mut step = word;
    for bit in [1, 2, 4, 8] {
        for low in 0..bit {
            table[bit + low] = table[low] ^ step;
        }
        step = twice(step);
    }
    table
}

/// The 2t check values of these values, in front.
pub fn check_values(t: usize, values: &[Word]) -> [Word; 2 * MOST_BAD] {
    let mut checks = [0; 2 * MOST_BAD];
    for (&value, remainder) in values.iter().zip(&REMAINDERS[t]) {
        let low = multiples(value);
        let high = multiples(twice(twice(twice(twice(value)))));
        for (check, &factor) in checks[..2 * t].iter_mut().zip(remainder) {
            *check ^= low[usize::from(factor & 15)] ^ high[usize::from(factor >> 4)];
        }
    }
    checks
}
