//! The level of a finished column by Ask 3 of the change requests, and its correction, with the refusals of the level: heights sorted, and
//! those that stand t - b from either end looked up.

use crate::refusals::{Call, Case, answer};

/// What a level may depend on. Values and confidences are those of n columns; what stands behind them says nothing.
#[derive(Clone, Copy, Debug)]
pub struct Finished<'a> {
    pub n: u32,
    pub t: u32,
    pub w: u32,
    pub number: u32,
    pub own: &'a [u8],
    pub round: u32,
    pub values: &'a [u8],
    pub confidences: &'a [u8],
}

/// The answer, 0 or the number of a refusal, which has zeros behind it.
#[derive(Clone, Copy, Debug, PartialEq)]
pub struct Levelled {
    pub answer: u32,
    pub level: i64,
    pub correction: i64,
}

const fn refused(answer: u32) -> Levelled {
    Levelled {
        answer,
        level: 0,
        correction: 0,
    }
}

/// A height: a signed number of 32 bits, high byte first.
fn height(bytes: &[u8]) -> i64 {
    i32::from_be_bytes(bytes[..4].try_into().unwrap()).into()
}

impl Finished<'_> {
    /// The lines from 1 to 17 are those of a result call.
    fn refusal(&self) -> u32 {
        let case = Case {
            n: self.n,
            t: self.t,
            w: self.w,
            number: self.number,
            own: self.own,
            round: self.round,
            run: 0,
            slot: 0,
            frame: &[],
            taken: false,
            early: false,
            room: 0,
        };
        match answer(Call::Result, &case) {
            0 if self.w != 4 => 21,
            number => number,
        }
    }

    pub fn level(&self) -> Levelled {
        match self.refusal() {
            0 => {}
            number => return refused(number),
        }
        let (n, t) = (self.n as usize, self.t as usize);
        let columns = self.values.chunks(4).zip(self.confidences).take(n);
        let (blank, believed): (Vec<_>, Vec<_>) =
            columns.partition(|(_, confidence)| **confidence == 0);
        // Number 22 is for more blanks than bad columns are borne.
        let Some(dropped) = t.checked_sub(blank.len()) else {
            return refused(22);
        };
        let mut heights: Vec<i64> = believed.iter().map(|(value, _)| height(value)).collect();
        heights.sort();
        let (lowest, highest) = (heights[dropped], heights[heights.len() - 1 - dropped]);
        let level = (lowest + highest).div_euclid(2);
        Levelled {
            answer: 0,
            level,
            correction: level - height(self.own),
        }
    }
}
