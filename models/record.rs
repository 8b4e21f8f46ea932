//! A column's record to the byte: what opening, taking and closing leave in it, and what a result call answers. Bytes that hold nothing
//! are 0. Refusals are those of the table, and what a closing finds is the other model's; here stands where it is written.

use crate::exchange::{Model, Told, Value};
use crate::frames::command_of;
use crate::refusals::{Call, Case, answer, count_refusal};

/// Room in a record: columns, bytes of a value, bytes of a frame.
const COLUMNS: usize = 32;
const VALUE: usize = 8;
const FRAME: usize = 164;

#[derive(Clone)]
pub struct Slot {
    pub taken: u8,
    pub bytes: Vec<u8>,
}

/// Any bits may stand in it, also such as no call leaves.
#[derive(Clone)]
pub struct Record {
    pub n: u32,
    pub t: u32,
    pub w: u32,
    pub number: u32,
    pub run: u16,
    pub own: Vec<u8>,
    pub slots: Vec<Slot>,
    pub early: Vec<Slot>,
    pub heard: Vec<u8>,
    pub agreed: Vec<u8>,
    pub values: Vec<u8>,
    pub confidences: Vec<u8>,
    pub told_two: Vec<u8>,
    pub told_three: Vec<u8>,
    pub round: u32,
    pub refused: Vec<u32>,
}

/// These bytes in front of zeros.
fn padded(bytes: &[u8], room: usize) -> Vec<u8> {
    let mut padded = bytes.to_vec();
    padded.resize(room, 0);
    padded
}

fn told_bytes(told: &[Told]) -> Vec<u8> {
    let bytes: Vec<u8> = told.iter().map(|told| told.byte()).collect();
    padded(&bytes, COLUMNS)
}

fn empty_slots() -> Vec<Slot> {
    let (taken, bytes) = (0, vec![0; FRAME]);
    vec![Slot { taken, bytes }; COLUMNS]
}

impl Record {
    /// The record of no column, all zeros, which a refused opening leaves.
    pub fn empty() -> Record {
        Record {
            n: 0,
            t: 0,
            w: 0,
            number: 0,
            run: 0,
            own: vec![0; VALUE],
            slots: empty_slots(),
            early: empty_slots(),
            heard: vec![0; COLUMNS * VALUE],
            agreed: vec![0; COLUMNS * VALUE],
            values: vec![0; COLUMNS * VALUE],
            confidences: vec![0; COLUMNS],
            told_two: vec![0; COLUMNS],
            told_three: vec![0; COLUMNS],
            round: 0,
            refused: vec![0; COLUMNS],
        }
    }

    pub fn open(n: u32, t: u32, w: u32, number: u32, run: u16, own: &[u8]) -> (u32, Record) {
        let asked = Record {
            n,
            t,
            w,
            number,
            run,
            round: 1,
            ..Record::empty()
        };
        match answer(
            Call::Open,
            &Case {
                own,
                ..asked.case(0, &[])
            },
        ) {
            0 => (
                0,
                Record {
                    own: padded(own, VALUE),
                    ..asked
                },
            ),
            refused => (refused, Record::empty()),
        }
    }

    /// What a refusal may depend on.
    fn case<'a>(&'a self, slot: u32, frame: &'a [u8]) -> Case<'a> {
        let is_there = |slots: &[Slot]| {
            (1..=COLUMNS as u32).contains(&slot) && slots[slot as usize - 1].taken != 0
        };
        Case {
            n: self.n,
            t: self.t,
            w: self.w,
            number: self.number,
            own: &self.own,
            round: self.round,
            run: self.run,
            slot,
            frame,
            taken: is_there(&self.slots),
            early: is_there(&self.early),
            room: 0,
        }
    }

    /// A frame that is taken stands in its slot, marked 1, of the round or of the one that follows; one that is refused leaves nothing
    /// but its slot's count.
    pub fn take(&mut self, slot: u32, frame: &[u8]) -> u32 {
        let answered = answer(Call::Take, &self.case(slot, frame));
        if answered == 0 {
            let slots = if frame[0] == command_of(self.round) {
                &mut self.slots
            } else {
                &mut self.early
            };
            slots[slot as usize - 1] = Slot {
                taken: 1,
                bytes: padded(frame, FRAME),
            };
        }
        count_refusal(&mut self.refused, slot, answered);
        answered
    }

    /// Closing writes V, Y, or values and confidences, and what round two or three told. Every slot has then what came early, whatever it
    /// is, and nothing is early any more.
    pub fn close(&mut self) -> u32 {
        let answered = answer(Call::Close, &self.case(0, &[]));
        if answered != 0 {
            return answered;
        }
        let mut column = self.read();
        column.close();
        match self.round {
            1 => self.heard = padded(&column.heard.concat(), COLUMNS * VALUE),
            2 => {
                self.agreed = padded(&column.agreed.concat(), COLUMNS * VALUE);
                self.told_two = told_bytes(&column.told_two);
            }
            _ => {
                let (values, confidences): (Vec<Value>, Vec<u8>) =
                    column.held.iter().cloned().unzip();
                self.values = padded(&values.concat(), COLUMNS * VALUE);
                self.confidences = padded(&confidences, COLUMNS);
                self.told_three = told_bytes(&column.told_three);
            }
        }
        self.slots = std::mem::replace(&mut self.early, empty_slots());
        self.round += 1;
        0
    }

    /// The answer; the values, the confidences, and what rounds two and three told.
    pub fn result(&self) -> (u32, [Vec<u8>; 4]) {
        let answered = answer(Call::Result, &self.case(0, &[]));
        let (size, count) = match answered {
            0 => ((self.n * self.w) as usize, self.n as usize),
            _ => (0, 0),
        };
        let of_each = |bytes: &[u8]| padded(&bytes[..count], COLUMNS);
        let found = [
            padded(&self.values[..size], COLUMNS * VALUE),
            of_each(&self.confidences),
            of_each(&self.told_two),
            of_each(&self.told_three),
        ];
        (answered, found)
    }

    /// What the record says of a column whose settings pass: what stands behind n columns and w bytes says nothing, and what came early
    /// says nothing in this round.
    fn read(&self) -> Model {
        let (n, t, w) = (self.n as usize, self.t as usize, self.w as usize);
        let values = |bytes: &[u8]| bytes[..n * w].chunks(w).map(<[u8]>::to_vec).collect();
        let operand = if self.round == 1 { w } else { 2 * t * w };
        let operands = self.slots[..n].iter().map(|slot| {
            let operand = &slot.bytes[4..4 + operand];
            (slot.taken != 0).then(|| operand.to_vec())
        });
        Model {
            n: self.n,
            t: self.t,
            w: self.w,
            number: self.number,
            run: self.run,
            own: self.own[..w].to_vec(),
            round: self.round,
            refused: self.refused[..n].to_vec(),
            operands: operands.collect(),
            early: vec![None; n],
            heard: values(&self.heard),
            agreed: values(&self.agreed),
            held: vec![],
            told_two: vec![],
            told_three: vec![],
        }
    }
}
