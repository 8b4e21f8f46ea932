//! One column's exchange, written apart from the library: tables of values as lists, counts in a map, and repair by linear equations.

use crate::division::check_values;
use crate::frames::{command_of, frame};
use crate::linear;
use crate::refusals::{Call, Case, answer, count_refusal};
use std::collections::BTreeMap;

pub type Value = Vec<u8>;

/// What a round tells of a sender: how many of the n + 2t places the repair of its row changed, or one of two marks, for a missing frame
/// and for "none".
#[derive(Clone, Copy, Debug, PartialEq)]
pub enum Told {
    Changed(u32),
    Missing,
    None,
}

impl Told {
    /// As it stands in a record.
    pub fn byte(self) -> u8 {
        match self {
            Told::Changed(places) => places as u8,
            Told::Missing => 254,
            Told::None => 255,
        }
    }
}

#[derive(Clone)]
pub struct Model {
    pub n: u32,
    pub t: u32,
    pub w: u32,
    pub number: u32,
    pub run: u16,
    pub own: Value,
    pub round: u32,
    /// How many frames of each column were refused.
    pub refused: Vec<u32>,
    /// What came of each column in the round.
    pub operands: Vec<Option<Vec<u8>>>,
    /// What came of each column for the round that follows.
    pub early: Vec<Option<Vec<u8>>>,
    pub heard: Vec<Value>,
    pub agreed: Vec<Value>,
    pub held: Vec<(Value, u8)>,
    /// What rounds two and three told of each column.
    pub told_two: Vec<Told>,
    pub told_three: Vec<Told>,
}

impl Model {
    pub fn open(n: u32, t: u32, w: u32, number: u32, run: u16, own: &[u8]) -> Model {
        let nothing = vec![None; n as usize];
        let (own, heard, agreed, held) = (own.to_vec(), vec![], vec![], vec![]);
        Model {
            n,
            t,
            w,
            number,
            run,
            own,
            round: 1,
            refused: vec![0; n as usize],
            operands: nothing.clone(),
            early: nothing,
            heard,
            agreed,
            held,
            told_two: vec![],
            told_three: vec![],
        }
    }

    pub fn take(&mut self, slot: u32, frame: &[u8]) -> u32 {
        let Model {
            n,
            t,
            w,
            number,
            run,
            round,
            ..
        } = *self;
        let is_there =
            |came: &[Option<Vec<u8>>]| (1..=n).contains(&slot) && came[slot as usize - 1].is_some();
        let case = Case {
            n,
            t,
            w,
            number,
            own: &self.own,
            round,
            run,
            slot,
            frame,
            taken: is_there(&self.operands),
            early: is_there(&self.early),
            room: 0,
        };
        let answered = answer(Call::Take, &case);
        if answered == 0 {
            let came = if frame[0] == command_of(round) {
                &mut self.operands
            } else {
                &mut self.early
            };
            came[slot as usize - 1] = Some(frame[4..].to_vec());
        }
        count_refusal(&mut self.refused, slot, answered);
        answered
    }

    /// The frame of the round.
    pub fn frame(&self) -> Vec<u8> {
        let operand = match self.round {
            1 => self.own.clone(),
            2 => self.checks(&self.heard),
            _ => self.checks(&self.agreed),
        };
        frame(
            command_of(self.round),
            self.number as u8,
            self.run,
            &operand,
        )
    }

    pub fn checks(&self, vector: &[Value]) -> Vec<u8> {
        check_values(&vector.concat(), self.t as usize, self.w as usize)
    }

    pub fn close(&mut self) {
        match self.round {
            1 => self.heard = (1..=self.n).map(|k| self.heard_of(k)).collect(),
            2 => {
                let (table, told) = self.table(&self.heard);
                self.agreed = (0..self.n as usize)
                    .map(|k| self.agreed_at(&table, k))
                    .collect();
                self.told_two = told;
            }
            _ => {
                let (table, told) = self.table(&self.agreed);
                self.held = (0..self.n as usize)
                    .map(|k| self.held_at(&table, k))
                    .collect();
                self.told_three = told;
            }
        }
        self.round += 1;
        let nothing = vec![None; self.n as usize];
        self.operands = std::mem::replace(&mut self.early, nothing);
    }

    fn blank(&self) -> Value {
        vec![0; self.w as usize]
    }

    fn heard_of(&self, k: u32) -> Value {
        if k == self.number {
            return self.own.clone();
        }
        self.operands[k as usize - 1]
            .clone()
            .unwrap_or(self.blank())
    }

    fn table(&self, vector: &[Value]) -> (Vec<Vec<Value>>, Vec<Told>) {
        (1..=self.n).map(|k| self.row(k, vector)).unzip()
    }

    fn row(&self, k: u32, vector: &[Value]) -> (Vec<Value>, Told) {
        if k == self.number {
            return (vector.to_vec(), Told::Changed(0));
        }
        let blanks = vec![self.blank(); self.n as usize];
        let Some(checks) = &self.operands[k as usize - 1] else {
            return (blanks, Told::Missing);
        };
        let mut repaired = vec![0; (self.n * self.w) as usize];
        match linear::repair(
            self.n,
            self.t,
            self.w,
            &vector.concat(),
            checks,
            &mut repaired,
        ) {
            (0, changed, _) => {
                let values = repaired.chunks(self.w as usize).map(<[u8]>::to_vec);
                (values.collect(), Told::Changed(changed))
            }
            _ => (blanks, Told::None),
        }
    }

    fn agreed_at(&self, table: &[Vec<Value>], k: usize) -> Value {
        let found = found(table, k)
            .into_iter()
            .find(|(_, times)| *times >= self.n - self.t);
        found.map_or(self.blank(), |(value, _)| value)
    }

    fn held_at(&self, table: &[Vec<Value>], k: usize) -> (Value, u8) {
        let mut best = (self.blank(), 0);
        for (value, times) in found(table, k) {
            // Smaller bytes come first, so that a tie keeps them.
            if value != self.blank() && times > best.1 {
                best = (value, times);
            }
        }
        match best {
            (value, times) if times > 2 * self.t => (value, 2),
            (value, times) if times > self.t => (value, 1),
            _ => (self.blank(), 0),
        }
    }
}

/// How often each value stands in a column of a table.
fn found(table: &[Vec<Value>], k: usize) -> BTreeMap<Value, u32> {
    let mut times = BTreeMap::new();
    for row in table {
        *times.entry(row[k].clone()).or_default() += 1;
    }
    times
}

/// What two good columns promise each other about one column: confidences at most one apart, and equal values where both are above 0.
pub fn agree<V: PartialEq>(a: &(V, u8), b: &(V, u8)) -> bool {
    a.1.abs_diff(b.1) <= 1 && (a.1 == 0 || b.1 == 0 || a.0 == b.0)
}
