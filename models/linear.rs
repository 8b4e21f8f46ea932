//! The peer: repair by linear equations, solved from scratch for each plane (Peterson, Gorenstein and Zierler).
//!
//! The power sums S of a plane's wrong places give a matrix of S[i + j]. Its first column that depends on those before it
//! says how many places are wrong, and how it depends is the polynomial whose roots they are. A search finds the roots, and
//! stops when it has as many as there are wrong places, and a second elimination the values. All 2t sums are compared at the
//! end, so that an answer is right; and t wrong places or fewer are always found.

const FIRST_ROOT: usize = 120;
const MOST: usize = 10;

// From 511 on, which is the logarithm of 0, every power is 0.
static EXP: [u8; 1024] = powers();
static LOG: [u16; 256] = logarithms();

const fn powers() -> [u8; 1024] {
    let mut exp = [0; 1024];
    let (mut i, mut x) = (0, 1u16);
    while i < 510 {
        exp[i] = x as u8;
        x <<= 1;
        if x > 255 {
            x ^= 0x187;
        }
        i += 1;
    }
    exp
}

const fn logarithms() -> [u16; 256] {
    let exp = powers();
    let mut log = [511; 256];
    let mut i = 0;
    while i < 255 {
        log[exp[i] as usize] = i as u16;
        i += 1;
    }
    log
}

#[inline(always)]
pub fn log(a: u8) -> usize {
    LOG[a as usize] as usize
}

/// a times the byte with this logarithm.
#[inline(always)]
pub fn times(a: u8, log_b: usize) -> u8 {
    EXP[(log(a) + log_b) & 1023]
}

/// 2 to any exponent.
#[inline(always)]
pub fn power(exponent: usize) -> u8 {
    EXP[exponent % 255]
}

/// The exponent that a place stands for: the columns from 254 down, then the checks down to 0.
#[inline(always)]
fn exponent(n: usize, t: usize, place: usize) -> usize {
    if place < n {
        254 - place
    } else {
        n + 2 * t - 1 - place
    }
}

type Matrix = [[u8; MOST + 1]; MOST];

/// Gauss-Jordan on the first rows: the pivot of column c stands in row c. Stops at the first column with none, or after
/// all the rows, and answers how many pivots there are; the next column then has its coefficients by those before.
fn eliminate(m: &mut Matrix, rows: usize) -> usize {
    for c in 0..rows {
        let Some(pivot) = (c..rows).find(|&r| m[r][c] != 0) else {
            return c;
        };
        m.swap(c, pivot);
        let scale = 255 - log(m[c][c]);
        for j in c..=rows {
            m[c][j] = times(m[c][j], scale);
        }
        let row = m[c];
        for r in 0..rows {
            if r != c && m[r][c] != 0 {
                let factor = log(m[r][c]);
                for j in c..=rows {
                    m[r][j] ^= times(row[j], factor);
                }
            }
        }
    }
    rows
}

/// The sums of a plane at the first 2t roots. The roots' chains of products do not wait for each other.
fn sums(n: usize, t: usize, word: &[u8]) -> [u8; 2 * MOST] {
    let mut s = [0; 2 * MOST];
    for &b in &word[..n] {
        for (i, s) in s[..2 * t].iter_mut().enumerate() {
            *s = times(*s, FIRST_ROOT + i) ^ b;
        }
    }
    for (i, s) in s[..2 * t].iter_mut().enumerate() {
        *s = times(*s, (FIRST_ROOT + i) * (255 - n - 2 * t) % 255);
    }
    for &b in &word[n..] {
        for (i, s) in s[..2 * t].iter_mut().enumerate() {
            *s = times(*s, FIRST_ROOT + i) ^ b;
        }
    }
    s
}

/// Repairs the n + 2t bytes of a plane and answers which it changed, a bit for each place; nothing where no codeword is near.
fn repair_plane(n: usize, t: usize, word: &mut [u8]) -> Option<u64> {
    let s = sums(n, t, word);
    let mut m: Matrix = [[0; MOST + 1]; MOST];
    for i in 0..t {
        m[i][..=t].copy_from_slice(&s[i..=i + t]);
    }
    let wrong = eliminate(&mut m, t);

    // the roots of x^wrong + m[wrong - 1][wrong] x^(wrong - 1) + .. + m[0][wrong]
    let mut places = [0; MOST];
    let mut found = 0;
    for place in 0..n + 2 * t {
        if found == wrong {
            break;
        }
        let x = exponent(n, t, place);
        let value = (0..wrong)
            .rev()
            .fold(1, |value, j| times(value, x) ^ m[j][wrong]);
        if value == 0 {
            places[found] = place;
            found += 1;
        }
    }
    if found < wrong {
        return None;
    }

    let exponents = places.map(|place| exponent(n, t, place));
    for i in 0..wrong {
        for j in 0..wrong {
            m[i][j] = power(i * exponents[j]);
        }
        m[i][wrong] = s[i];
    }
    if eliminate(&mut m, wrong) < wrong {
        return None;
    }
    for i in wrong..2 * t {
        let sum = (0..wrong).fold(0, |sum, j| sum ^ times(m[j][wrong], i * exponents[j] % 255));
        if sum != s[i] {
            return None;
        }
    }
    // No byte that is added here is 0: fewer wrong places would have given fewer pivots.
    let mut changed = 0;
    for j in 0..wrong {
        word[places[j]] ^= times(m[j][wrong], 255 - FIRST_ROOT * exponents[j] % 255);
        changed |= 1 << places[j];
    }
    Some(changed)
}

/// The call as the library has it: 0 and the vector in front of the output, 256 for none, or a refusal; how many of the n + 2t places it
/// changed, in whatever planes; and for each plane up to which place something is changed, from 1, or n + 2t where no codeword is near,
/// also beside another plane that has none.
pub fn repair(
    n: u32,
    t: u32,
    w: u32,
    vector: &[u8],
    checks: &[u8],
    output: &mut [u8],
) -> (u32, u32, [u8; 8]) {
    let mut tried = [0; 8];
    if !(1..=32).contains(&n) {
        return (1, 0, tried);
    }
    if (n - 1) / 3 < t {
        return (2, 0, tried);
    }
    if !(1..=8).contains(&w) {
        return (3, 0, tried);
    }
    let (n, t, w) = (n as usize, t as usize, w as usize);
    if vector.len() != n * w || checks.len() != 2 * t * w || output.len() < n * w {
        return (18, 0, tried);
    }
    let mut repaired = [0; 256];
    let mut changed = 0;
    let mut all_near = true;
    for p in 0..w {
        let mut word = [0; 52];
        for k in 0..n {
            word[k] = vector[k * w + p];
        }
        for c in 0..2 * t {
            word[n + c] = checks[c * w + p];
        }
        let Some(in_plane) = repair_plane(n, t, &mut word[..n + 2 * t]) else {
            all_near = false;
            tried[p] = (n + 2 * t) as u8;
            continue;
        };
        changed |= in_plane;
        tried[p] = (u64::BITS - in_plane.leading_zeros()) as u8;
        for k in 0..n {
            repaired[k * w + p] = word[k];
        }
    }
    if !all_near {
        return (256, 0, tried);
    }
    output[..n * w].copy_from_slice(&repaired[..n * w]);
    (0, changed.count_ones(), tried)
}
