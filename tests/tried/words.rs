//! Planes of words, and what is known of each from how it was made. Nothing here looks for wrong places, but for the search at the end.

use crate::chance::Chance;
use crate::remainders::{Coder, Value, generator, times};

/// One byte plane: its n + 2t bytes as received, and the codeword that is within t places of it, if there is one.
#[derive(Clone)]
pub struct Plane {
    pub received: Vec<u8>,
    pub near: Option<Near>,
}

#[derive(Clone)]
pub struct Near {
    pub codeword: Vec<u8>,
    /// The places in which the plane differs from it, from 1 on, the checks behind the columns.
    pub wrong: Vec<usize>,
}

impl Plane {
    /// The last place that is wrong, 0 where none is, or all places where no codeword is near.
    pub fn tried(&self) -> usize {
        match &self.near {
            Some(near) => near.wrong.iter().copied().max().unwrap_or(0),
            None => self.received.len(),
        }
    }
}

/// The codewords of n columns and 2t checks.
pub struct Code {
    pub n: usize,
    pub t: usize,
    coder: Coder,
}

/// Any byte but 0.
fn change(chance: &mut Chance) -> u8 {
    1 + chance.below(255) as u8
}

impl Code {
    pub fn new(n: usize, t: usize) -> Code {
        let coder = Coder::new(n, 2 * t);
        Code { n, t, coder }
    }

    pub fn places(&self) -> usize {
        self.n + 2 * self.t
    }

    /// So many places, no two alike, in any order.
    pub fn some_places(&self, count: usize, chance: &mut Chance) -> Vec<usize> {
        let mut places: Vec<usize> = (1..=self.places()).collect();
        chance.shuffle(&mut places);
        places.truncate(count);
        places
    }

    /// The values of a plane with their checks.
    pub fn codeword(&self, values: &[u8]) -> Vec<u8> {
        let one_plane: Vec<Value> = values.iter().map(|&byte| vec![byte]).collect();
        [values, &self.coder.checks(&one_plane).concat()].concat()
    }

    pub fn any_codeword(&self, chance: &mut Chance) -> Vec<u8> {
        let mut values = vec![0; self.n];
        chance.fill(&mut values);
        self.codeword(&values)
    }

    /// A codeword that was changed in these places, t at most. It is the near one: any other differs from it in 2t + 1 places.
    pub fn changed(&self, codeword: &[u8], wrong: &[usize], chance: &mut Chance) -> Plane {
        assert!(wrong.len() <= self.t);
        let mut received = codeword.to_vec();
        for place in wrong {
            received[place - 1] ^= change(chance);
        }
        let near = Some(Near {
            codeword: codeword.to_vec(),
            wrong: wrong.to_vec(),
        });
        Plane { received, near }
    }

    /// A codeword that was changed in t + 1 places, which now are as another codeword has them, one that differs from it in a column and
    /// all checks. That one is near, and wrong are the t places that are still the first one's.
    pub fn nearer_another(&self, chance: &mut Chance) -> Plane {
        let first = self.any_codeword(chance);
        let mut values = first[..self.n].to_vec();
        values[chance.below(self.n as u64) as usize] ^= change(chance);
        let codeword = self.codeword(&values);
        let mut apart: Vec<usize> = (1..=self.places())
            .filter(|place| first[place - 1] != codeword[place - 1])
            .collect();
        assert_eq!(apart.len(), 2 * self.t + 1);
        chance.shuffle(&mut apart);
        let wrong = apart[..self.t].to_vec();
        let mut received = codeword.clone();
        for place in &wrong {
            received[place - 1] = first[place - 1];
        }
        let near = Some(Near { codeword, wrong });
        Plane { received, near }
    }

    /// A word with no codeword near: one whose checks have a multiple of the generator of 2t - 1 roots added, and up to t - 1 places then
    /// changed, or changed back. That generator divides the word before these changes and every codeword, so that they differ in 2t
    /// places at least, and the word after them in t + 1 at least. Where t - 1 places are changed back, it is t + 1 of one.
    pub fn far(&self, chance: &mut Chance) -> Plane {
        let codeword = self.any_codeword(chance);
        let mut received = codeword.clone();
        let factor = change(chance);
        for (byte, coefficient) in received[self.n..].iter_mut().zip(generator(2 * self.t - 1)) {
            *byte ^= times(coefficient, factor);
        }
        if chance.one_in(2) {
            let count = chance.below(self.t as u64) as usize;
            for place in self.some_places(count, chance) {
                received[place - 1] ^= change(chance);
            }
        } else {
            let mut checks: Vec<usize> = (self.n..self.places()).collect();
            chance.shuffle(&mut checks);
            for &at in &checks[..self.t - 1] {
                received[at] = codeword[at];
            }
        }
        let near = None;
        Plane { received, near }
    }

    /// What is within one place, t being 1, found by every change of every place: the same as the plane is said to have.
    pub fn assert_by_search(&self, plane: &Plane) {
        assert_eq!(self.t, 1);
        let mut found = vec![];
        for place in 1..=self.places() {
            for change in 1..=255 {
                let mut word = plane.received.clone();
                word[place - 1] ^= change;
                if word == self.codeword(&word[..self.n]) {
                    found.push((word, vec![place]));
                }
            }
        }
        if plane.received == self.codeword(&plane.received[..self.n]) {
            found.push((plane.received.clone(), vec![]));
        }
        let known = plane
            .near
            .iter()
            .map(|near| (near.codeword.clone(), near.wrong.clone()));
        assert_eq!(found, known.collect::<Vec<_>>(), "the search");
    }
}
