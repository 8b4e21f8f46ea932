//! Calls of repair that are turned down: the first line of the scope's table that applies is the answer, whatever else applies; no place is
//! changed, none is tried in any of the eight planes, and the output keeps its bytes.

use crate::chance::Chance;
use crate::words::{Code, Plane};
use crate::{FILL, NONE, archive, compare, ending, glued};
use std::collections::BTreeSet;

/// Every w, from the smallest word with checks to the greatest.
#[rustfmt::skip]
const SETTINGS: [(usize, usize, usize); 8] =
    [(4, 1, 1), (5, 1, 2), (7, 2, 3), (12, 3, 4), (16, 5, 5), (32, 1, 6), (31, 10, 7), (32, 10, 8)];

/// The numbers of the lines in their order, 18 for each of its reasons.
const NUMBERS: [u32; 6] = [1, 2, 3, 18, 18, 18];

/// Settings, and how many bytes are lent: vector, checks and output.
struct Call {
    settings: [u32; 3],
    lent: [usize; 3],
}

impl Call {
    /// Which of the lines apply.
    fn lines(&self) -> [bool; 6] {
        let [n, t, w] = self.settings.map(u128::from);
        let [vector, checks, output] = self.lent.map(|length| length as u128);
        [
            !(1..=32).contains(&n),
            n < 3 * t + 1,
            !(1..=8).contains(&w),
            vector != n * w,
            checks != 2 * t * w,
            output < n * w,
        ]
    }

    /// With these bytes, cut or with others behind them.
    fn assert_refused(&self, vector: &[u8], checks: &[u8], answer: u32) {
        let Call { settings, lent } = self;
        let ([n, t, w], [vector_length, checks_length, room]) = (*settings, *lent);
        let (mut vector, mut checks) = (vector.to_vec(), checks.to_vec());
        vector.resize(vector_length, FILL);
        checks.resize(checks_length, FILL);
        let mut output = vec![FILL; room + 3];
        let kept = output.clone();
        let repaired = archive::repair(n, t, w, &vector, &checks, &mut output[..room]);
        let got = (repaired.answer, repaired.changed, repaired.tried, output);
        let known = (answer, 0, [0; 8], kept);
        assert_eq!(got, known, "n {n}, t {t}, w {w}, lent {lent:?}");
    }
}

/// Every choice of one from each.
fn choices<T: Copy>([a, b, c]: [&[T]; 3]) -> Vec<[T; 3]> {
    let pairs = a.iter().flat_map(|&a| b.iter().map(move |&b| (a, b)));
    pairs
        .flat_map(|(a, b)| c.iter().map(move |&c| [a, b, c]))
        .collect()
}

/// As many bytes as fit, one more, one less, and as many as fit the settings in range, which stand for the first where that is too many.
fn about(fitting: u128, usual: usize) -> [usize; 4] {
    let fits = if fitting <= 33 * 9 {
        fitting as usize
    } else {
        usual
    };
    [fits, fits + 1, fits.saturating_sub(1), usual]
}

/// Settings in range and out of it, each with lengths that fit and that do not.
fn calls(n: usize, t: usize, w: usize) -> Vec<Call> {
    let usual = [n * w, 2 * t * w];
    let [n, t, w] = [n, t, w].map(|number| number as u32);
    let settings = choices([
        &[n, n + 1, 0, 33, u32::MAX],
        // In 32 bits 3t + 1 would be 3 for the last but one.
        &[t, t - 1, (n + 2) / 3, 0x5555_5556, u32::MAX],
        &[w, 0, 9, u32::MAX],
    ]);
    let with_lengths = |settings: [u32; 3]| {
        let [n, t, w] = settings.map(u128::from);
        let values = about(n * w, usual[0]);
        choices([&values, &about(2 * t * w, usual[1]), &values])
            .into_iter()
            .map(move |lent| Call { settings, lent })
    };
    settings.into_iter().flat_map(with_lengths).collect()
}

/// A word with something to try in every plane, lent with other settings and lengths.
pub fn refusals(chance: &mut Chance) -> u32 {
    let mut refused = 0;
    for (n, t, w) in SETTINGS {
        let code = Code::new(n, t);
        let mut planes: Vec<Plane> = (0..w).map(|p| ending(&code, 1 + p, chance)).collect();
        planes[w / 2] = code.far(chance);
        assert_eq!(compare(&code, &planes, chance), NONE);
        let received: Vec<&[u8]> = planes.iter().map(|plane| &plane.received[..]).collect();
        let word = glued(&received);
        let (vector, checks) = word.split_at(n * w);

        let mut reached = BTreeSet::new();
        for call in calls(n, t, w) {
            let lines = call.lines();
            if let Some(first) = lines.iter().position(|applies| *applies) {
                call.assert_refused(vector, checks, NUMBERS[first]);
                reached.insert(lines);
                refused += 1;
            }
        }
        // Each line by itself, and every two of them at once.
        let few = |lines: &&[bool; 6]| lines.iter().filter(|applies| **applies).count() <= 2;
        assert_eq!(reached.iter().filter(few).count(), 6 + 15);
    }
    refused
}
