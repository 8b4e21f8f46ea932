//! What is timed: the inputs of each case, and random ones to compare answers by.

use crate::chance::Chance;
use crate::register;
use std::fmt;

/// Settings, and what is wrong in every plane.
pub struct Case {
    pub n: usize,
    pub t: usize,
    pub w: usize,
    pub wrong: Wrong,
}

#[derive(Clone, Copy)]
pub enum Wrong {
    /// So many places, others in each plane.
    Any(usize),
    /// These places, from 1 on, the checks behind the columns.
    At(&'static [usize]),
}

use Wrong::{Any, At};

const fn greatest(wrong: Wrong) -> Case {
    let (n, t, w) = (31, 10, 8);
    Case { n, t, w, wrong }
}

const fn smallest(wrong: Wrong) -> Case {
    let (n, t, w) = (4, 1, 4);
    Case { n, t, w, wrong }
}

pub const REPAIRS: [Case; 10] = [
    greatest(Any(0)),
    greatest(Any(1)),
    // The first, the middle and the last of the 51 places.
    greatest(At(&[1])),
    greatest(At(&[26])),
    greatest(At(&[51])),
    greatest(At(&[1, 2])),
    greatest(Any(10)),
    greatest(Any(14)),
    smallest(Any(0)),
    smallest(Any(1)),
];

/// Those with nothing wrong, for check values.
pub const WHOLE: [Case; 2] = [greatest(Any(0)), smallest(Any(0))];

impl Case {
    /// Whether no codeword is near: so it is in each of the inputs that are drawn for it, which is asserted.
    pub fn is_none(&self) -> bool {
        matches!(self.wrong, Any(count) if count > self.t)
    }
}

/// The settings and what is wrong, as cells of a table.
impl fmt::Display for Case {
    fn fmt(&self, to: &mut fmt::Formatter) -> fmt::Result {
        let Case { n, t, w, wrong } = self;
        write!(to, "{n} | {t} | {w} | ")?;
        match wrong {
            Any(count) if self.is_none() => write!(to, "{count}, none near"),
            Any(count) => write!(to, "{count}"),
            At(places) => {
                let names: Vec<String> = places
                    .iter()
                    .map(|place| match place.checked_sub(*n) {
                        None | Some(0) => format!("column {place}"),
                        Some(check) => format!("check {check}"),
                    })
                    .collect();
                write!(to, "{}", names.join(", "))
            }
        }
    }
}

/// Settings, a vector and check values, some of them wrong.
pub struct Input {
    pub n: usize,
    pub t: usize,
    pub w: usize,
    pub vector: Vec<u8>,
    pub checks: Vec<u8>,
}

fn below(chance: &mut Chance, bound: usize) -> usize {
    chance.below(bound as u64) as usize
}

impl Input {
    /// A random vector and its checks, with these places wrong.
    pub fn new(chance: &mut Chance, case: &Case) -> Input {
        let Case { n, t, w, wrong } = *case;
        let mut vector = vec![0; n * w];
        chance.fill(&mut vector);
        let mut checks = vec![0; 2 * t * w];
        register::check_values(n, t, w, &vector, &mut checks);
        for p in 0..w {
            let places = match wrong {
                Any(count) => {
                    let mut places: Vec<usize> = (1..=n + 2 * t).collect();
                    chance.shuffle(&mut places);
                    places.truncate(count);
                    places
                }
                At(places) => places.to_vec(),
            };
            for at in places.iter().map(|place| place - 1) {
                let byte = if at < n {
                    &mut vector[at * w + p]
                } else {
                    &mut checks[(at - n) * w + p]
                };
                *byte ^= 1 + chance.below(255) as u8;
            }
        }
        Input {
            n,
            t,
            w,
            vector,
            checks,
        }
    }

    /// Random settings, and up to t + 3 places wrong; one in sixteen has random checks.
    pub fn random(chance: &mut Chance) -> Input {
        let n = 1 + below(chance, 32);
        let t = below(chance, (n - 1) / 3 + 1);
        let w = 1 + below(chance, 8);
        let wrong = Any(below(chance, t + 4));
        let mut input = Input::new(chance, &Case { n, t, w, wrong });
        if chance.one_in(16) {
            chance.fill(&mut input.checks);
        }
        input
    }
}
