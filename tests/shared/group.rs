//! A group with w = 4 whose columns go in step: every good frame reaches every good column, and bad ones tell each reader what they like.

use crate::archive::{self, Column, Identity};
use crate::frames::{command_of, frame};

/// What bad columns tell one reader in one round: of each its number and its frame's operand.
pub type Told = Vec<(u32, Vec<u8>)>;

pub struct Group {
    pub n: u32,
    pub t: u32,
    pub run: u16,
    pub good: Vec<Column>,
    /// Those that the good columns were opened with.
    pub heights: Vec<i32>,
}

fn sent(column: &Column) -> Vec<u8> {
    let mut buffer = [0; archive::LONGEST_FRAME];
    assert_eq!(archive::send(column, &mut buffer), 0, "sending");
    buffer[..archive::frame_size(column) as usize].to_vec()
}

fn taken(column: &Column, lent: &[u8]) -> Column {
    let outcome = archive::take(column, lent[1].into(), lent);
    assert_eq!(outcome.answer, 0, "taking {lent:?}");
    outcome.column
}

fn closed(column: &Column) -> Column {
    let outcome = archive::close(column);
    assert_eq!(outcome.answer, 0, "closing");
    outcome.column
}

/// The checks of a reader's own vector with other values in some places, which it repairs as long as they are at most t.
pub fn checks(reader: &Column, places: impl IntoIterator<Item = (u32, [u8; 4])>) -> Vec<u8> {
    let Identity { n, t, .. } = reader.who;
    let vector = if reader.round == 2 {
        &reader.found.heard
    } else {
        &reader.found.agreed
    };
    let mut vector = vector[..4 * n as usize].to_vec();
    for (number, value) in places {
        vector[4 * (number as usize - 1)..][..4].copy_from_slice(&value);
    }
    let mut checks = vec![0; 8 * t as usize];
    let answer = archive::check_values(n, t, 4, &vector, &mut checks);
    assert_eq!(answer, 0, "check values");
    checks
}

impl Group {
    /// With these good columns, of each its number and its own height.
    pub fn open(n: u32, t: u32, run: u16, good: &[(u32, i32)]) -> Group {
        let open = |&(number, height): &(u32, i32)| {
            let outcome = archive::open(n, t, 4, number, run, &height.to_be_bytes());
            assert_eq!(outcome.answer, 0, "opening");
            outcome.column
        };
        Group {
            n,
            t,
            run,
            good: good.iter().map(open).collect(),
            heights: good.iter().map(|(_, height)| *height).collect(),
        }
    }

    /// The lowest and the highest good height.
    pub fn ends(&self) -> (i32, i32) {
        let (lowest, highest) = (self.heights.iter().min(), self.heights.iter().max());
        (*lowest.unwrap(), *highest.unwrap())
    }

    /// The same, for sums and differences.
    pub fn bounds(&self) -> (i64, i64) {
        let (lowest, highest) = self.ends();
        (lowest.into(), highest.into())
    }

    /// One reader's round: every good frame, and what the bad columns tell it.
    fn read(&self, reader: &Column, good: &[Vec<u8>], told: &Told) -> Column {
        let Identity { number, .. } = reader.who;
        let mut column = *reader;
        for frame in good.iter().filter(|frame| u32::from(frame[1]) != number) {
            column = taken(&column, frame);
        }
        for (bad, operand) in told {
            let lent = frame(command_of(reader.round), *bad as u8, self.run, operand);
            column = taken(&column, &lent);
        }
        closed(&column)
    }

    /// All three rounds. What a reader is told may depend on it and on the good frames of its round.
    pub fn exchange(&mut self, mut told: impl FnMut(&Column, &[Vec<u8>]) -> Told) {
        for _ in 1..=3 {
            let frames: Vec<Vec<u8>> = self.good.iter().map(sent).collect();
            let read = |reader: &Column| self.read(reader, &frames, &told(reader, &frames));
            self.good = self.good.iter().map(read).collect();
        }
    }
}
