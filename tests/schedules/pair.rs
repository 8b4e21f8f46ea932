//! A good column: the library's record beside the model's, compared at every step.

use crate::archive::{self, Column};
use crate::exchange::{Model, Told, Value};
use crate::frames::command_of;
use std::ops::RangeInclusive;

/// A slot and the frame that comes in it.
pub type Event = (u32, Vec<u8>);

/// An event in the list of a reader's calls: the reader's round then, and the answer.
pub struct Handed {
    pub round: u32,
    pub event: Event,
    pub answer: u32,
}

/// A good column: the library's record and the model's, its frames of the rounds it has reached, and all that it was handed.
pub struct Pair {
    pub column: Column,
    pub model: Model,
    pub sent: Vec<Event>,
    pub handed: Vec<Handed>,
}

pub fn pair(n: u32, t: u32, w: u32, number: u32, run: u16, own: &[u8]) -> Pair {
    let opened = archive::open(n, t, w, number, run, own);
    assert_eq!(opened.answer, 0, "opening");
    let mut pair = Pair {
        column: opened.column,
        model: Model::open(n, t, w, number, run, own),
        sent: vec![],
        handed: vec![],
    };
    pair.send();
    pair
}

impl Pair {
    /// Sends the library's frame of the round, which is the model's.
    fn send(&mut self) {
        let frame = self.model.frame();
        let mut buffer = [0x5a; 170];
        assert_eq!(archive::send(&self.column, &mut buffer), 0, "sending");
        assert_eq!(
            buffer[..frame.len()],
            frame,
            "the frame of round {}",
            self.model.round
        );
        assert!(
            buffer[frame.len()..].iter().all(|byte| *byte == 0x5a),
            "bytes after the frame"
        );
        self.sent.push((self.model.number, frame));
    }

    pub fn take(&mut self, event: Event) {
        let (slot, frame) = &event;
        let (round, answer) = (self.model.round, self.model.take(*slot, frame));
        let outcome = archive::take(&self.column, *slot, frame);
        assert_eq!(
            outcome.answer, answer,
            "taking {frame:?} in slot {slot} in round {round}"
        );
        self.column = outcome.column;
        self.compare();
        self.handed.push(Handed {
            round,
            event,
            answer: outcome.answer,
        });
        self.assert_counted();
    }

    /// How many frames have one of these answers.
    pub fn answered(&self, answers: RangeInclusive<u32>) -> u64 {
        let answered = |handed: &&Handed| answers.contains(&handed.answer);
        self.handed.iter().filter(answered).count() as u64
    }

    /// What is promised of the counts, worked out from what was handed in since the opening and how it was answered: each slot's is how many
    /// frames were refused 9 to 15 in it, and their sum is how many were in all; the own slot's and those behind n are 0.
    fn assert_counted(&self) {
        let Pair { column, model, .. } = self;
        let mut in_slot = [0; 32];
        for handed in &self.handed {
            if (9..=15).contains(&handed.answer) {
                in_slot[handed.event.0 as usize - 1] += 1;
            }
        }
        assert_eq!(column.refused, in_slot, "frames refused by slot");
        let sum: u64 = column.refused.into_iter().map(u64::from).sum();
        assert_eq!(sum, self.answered(9..=15), "frames refused in all");
        let own = column.refused[model.number as usize - 1];
        assert_eq!(own, 0, "the own slot's");
        let behind = &column.refused[model.n as usize..];
        assert!(behind.iter().all(|count| *count == 0), "behind n");
    }

    /// Whether a frame of a round was handed in it, or at most so many rounds before.
    pub fn was_handed(&self, frame: &Event, of: u32, ahead: u32) -> bool {
        self.handed.iter().any(|handed| {
            handed.event == *frame && (handed.round..=handed.round + ahead).contains(&of)
        })
    }

    /// How many frames of the round that follows were taken.
    pub fn taken_early(&self) -> usize {
        let early = |handed: &&Handed| {
            handed.answer == 0 && handed.event.1[0] == command_of(handed.round + 1)
        };
        self.handed.iter().filter(early).count()
    }

    pub fn close(&mut self) {
        let outcome = archive::close(&self.column);
        assert_eq!(outcome.answer, 0, "closing");
        self.column = outcome.column;
        self.model.close();
        self.compare();
        self.assert_counted();
        if self.model.round < 4 {
            self.send();
        }
    }

    /// The record says what the model says.
    fn compare(&self) {
        let Pair { column, model, .. } = self;
        let size = (model.n * model.w) as usize;
        assert_eq!(column.round, model.round, "the round");
        let counts = &column.refused[..model.n as usize];
        assert_eq!(counts, model.refused, "the counts of refused frames");
        let slots = column.slots.iter().zip(&model.operands);
        let early = column.early.iter().zip(&model.early);
        for (slot, operand) in slots.chain(early) {
            assert_eq!(slot.taken != 0, operand.is_some(), "a slot's mark");
            assert!(
                operand
                    .iter()
                    .all(|operand| slot.bytes[4..4 + operand.len()] == **operand),
                "a slot's operand"
            );
        }
        if model.round > 1 {
            assert_eq!(column.found.heard[..size], model.heard.concat(), "V");
        }
        if model.round > 2 {
            assert_eq!(column.found.agreed[..size], model.agreed.concat(), "Y");
        }
        let (two, three) = (record_of(&model.told_two), record_of(&model.told_three));
        assert_eq!(column.found.told_two, two, "what round two told");
        assert_eq!(column.found.told_three, three, "what round three told");
        if model.round > 3 {
            self.compare_result();
        }
    }

    /// The result says what the model holds.
    fn compare_result(&self) {
        let Pair { column, model, .. } = self;
        let (count, size) = (model.n as usize, (model.n * model.w) as usize);
        let held = archive::result(column);
        let (values, confidences): (Vec<Value>, Vec<u8>) = model.held.iter().cloned().unzip();
        assert_eq!(held.answer, 0, "the result");
        assert_eq!(held.values[..size], values.concat(), "values");
        assert_eq!(held.confidences[..count], confidences, "confidences");
        let (two, three) = (record_of(&model.told_two), record_of(&model.told_three));
        assert_eq!(held.told_two, two, "round two in the result");
        assert_eq!(held.told_three, three, "round three in the result");
    }
}

/// A list of what a round told as a record has it: zeros behind the columns, and all of it zeros until the round is closed.
fn record_of(told: &[Told]) -> [u8; 32] {
    let mut bytes = [0; 32];
    for (byte, told) in bytes.iter_mut().zip(told) {
        *byte = told.byte();
    }
    bytes
}
