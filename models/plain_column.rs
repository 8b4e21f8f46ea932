//! One column's exchange as plain Rust has it where only speed counts: fixed arrays, each call in place, values compared as words. Its rows
//! are repaired by linear equations, every one from scratch.
//!
//! The settings, number and own value are checked at the opening, and nobody else can write them: the later calls' refusals 1 to 6 do not
//! occur.

use crate::linear;
use crate::words::{Word, check_values, word_of};

const COLUMNS: usize = 32;
const CHECK_BYTES: usize = 160;
/// Room for a value of every column, of which the last one too is read and written as a whole word.
const ROOM: usize = 8 * COLUMNS + 8;
const MISSING: u8 = 254;
const NONE: u8 = 255;
const BLANK: Word = 0;

#[derive(Clone, Copy)]
pub struct PlainColumn {
    n: usize,
    t: usize,
    w: usize,
    number: usize,
    run: [u8; 2],
    own: Word,
    round: usize,
    /// Whose frames are there, a bit for each slot: of the round, and of the one that follows.
    taken: [u32; 2],
    /// The check bytes of even and of odd rounds.
    checks: [[[u8; CHECK_BYTES]; COLUMNS]; 2],
    refused: [u32; COLUMNS],
    /// What came of values in round one, V in round two, Y in round three, the values at the end.
    vector: [Word; COLUMNS],
    confidences: [u8; COLUMNS],
    /// What rounds two and three told of each sender.
    told: [[u8; COLUMNS]; 2],
}

/// What a column ends with, of columns 1 to n; the first w bytes of each word are a value.
pub struct Held<'a> {
    pub w: usize,
    pub values: &'a [Word],
    pub confidences: &'a [u8],
    pub told_two: &'a [u8],
    pub told_three: &'a [u8],
}

type Rows = [[Word; COLUMNS]; COLUMNS];

impl PlainColumn {
    /// The record of no column, in which none is opened yet.
    pub fn new() -> PlainColumn {
        PlainColumn {
            n: 0,
            t: 0,
            w: 0,
            number: 0,
            run: [0; 2],
            own: BLANK,
            round: 0,
            taken: [0; 2],
            checks: [[[0; CHECK_BYTES]; COLUMNS]; 2],
            refused: [0; COLUMNS],
            vector: [BLANK; COLUMNS],
            confidences: [0; COLUMNS],
            told: [[0; COLUMNS]; 2],
        }
    }

    pub fn open(&mut self, n: u32, t: u32, w: u32, number: u32, run: u16, own: &[u8]) -> u32 {
        if !(1..=32).contains(&n) {
            return 1;
        }
        if (n - 1) / 3 < t {
            return 2;
        }
        if !(1..=8).contains(&w) {
            return 3;
        }
        if !(1..=n).contains(&number) {
            return 4;
        }
        if own.len() != w as usize {
            return 5;
        }
        let own = word_of(own);
        if own == BLANK {
            return 6;
        }
        (self.n, self.t, self.w) = (n as usize, t as usize, w as usize);
        (self.number, self.run, self.own) = (number as usize, run.to_be_bytes(), own);
        (self.round, self.taken, self.refused) = (1, [0; 2], [0; COLUMNS]);
        self.vector = [BLANK; COLUMNS];
        self.vector[self.number - 1] = own;
        0
    }

    pub fn take(&mut self, slot: u32, frame: &[u8]) -> u32 {
        if !(1..=3).contains(&self.round) {
            return 7;
        }
        let slot = slot as usize;
        if !(1..=self.n).contains(&slot) || slot == self.number {
            return 8;
        }
        let answer = self.keep(slot, frame);
        if answer != 0 {
            let count = &mut self.refused[slot - 1];
            *count = count.saturating_add(1);
        }
        answer
    }

    #[inline(always)]
    fn keep(&mut self, slot: usize, frame: &[u8]) -> u32 {
        let [command, sender, high, low, operand @ ..] = frame else {
            return 9;
        };
        let check_bytes = 2 * self.t * self.w;
        let (round, length): (usize, usize) = match command {
            0x11 => (1, self.w),
            0x22 => (2, check_bytes),
            0x33 => (3, check_bytes),
            _ => return 10,
        };
        if operand.len() != length {
            return 11;
        }
        if usize::from(*sender) != slot {
            return 12;
        }
        if [*high, *low] != self.run {
            return 13;
        }
        let ahead = round.wrapping_sub(self.round);
        if ahead > 1 {
            return 14;
        }
        let bit = 1 << (slot - 1);
        if self.taken[ahead] & bit != 0 {
            return 15;
        }
        self.taken[ahead] |= bit;
        if round == 1 {
            self.vector[slot - 1] = word_of(operand);
        } else {
            self.checks[round % 2][slot - 1][..length].copy_from_slice(operand);
        }
        0
    }

    /// Writes the round's frame in front of the buffer, and answers its length.
    pub fn send(&self, buffer: &mut [u8]) -> Result<usize, u32> {
        if !(1..=3).contains(&self.round) {
            return Err(7);
        }
        let values = if self.round == 1 { 1 } else { 2 * self.t };
        let length = 4 + values * self.w;
        let Some(frame) = buffer.get_mut(..length) else {
            return Err(16);
        };
        let [high, low] = self.run;
        frame[..4].copy_from_slice(&[0x11 * self.round as u8, self.number as u8, high, low]);
        let packed = if self.round == 1 {
            packed(&[self.own], self.w)
        } else {
            let checks = check_values(self.t, &self.vector[..self.n]);
            packed(&checks[..values], self.w)
        };
        frame[4..].copy_from_slice(&packed[..length - 4]);
        Ok(length)
    }

    pub fn close(&mut self) -> u32 {
        match self.round {
            1 => {}
            2 => self.close_two(),
            3 => self.close_three(),
            _ => return 7,
        }
        self.round += 1;
        self.taken = [self.taken[1], 0];
        0
    }

    pub fn result(&self) -> Result<Held<'_>, u32> {
        if self.round != 4 {
            return Err(17);
        }
        Ok(Held {
            w: self.w,
            values: &self.vector[..self.n],
            confidences: &self.confidences[..self.n],
            told_two: &self.told[0][..self.n],
            told_three: &self.told[1][..self.n],
        })
    }

    /// How many frames of a slot were refused; nothing where there is no such column.
    pub fn refused(&self, slot: u32) -> Option<u32> {
        let slot = slot as usize;
        (1..=self.n).contains(&slot).then(|| self.refused[slot - 1])
    }

    fn close_two(&mut self) {
        let mut rows = [[BLANK; COLUMNS]; COLUMNS];
        self.repair_rows(&mut rows);
        for k in 0..self.n {
            let (value, times) = most_found(&rows[..self.n], k, self.vector[k]);
            let enough = times >= self.n - self.t;
            self.vector[k] = if enough { value } else { BLANK };
        }
    }

    fn close_three(&mut self) {
        let mut rows = [[BLANK; COLUMNS]; COLUMNS];
        self.repair_rows(&mut rows);
        for k in 0..self.n {
            let (value, times) = most_found(&rows[..self.n], k, self.vector[k]);
            (self.vector[k], self.confidences[k]) = match times {
                _ if times > 2 * self.t => (value, 2),
                _ if times > self.t => (value, 1),
                _ => (BLANK, 0),
            };
        }
    }

    /// Every sender's row of the round's table, and what is told of it. A row that is not written stays blank.
    fn repair_rows(&mut self, rows: &mut Rows) {
        let packed = packed(&self.vector[..self.n], self.w);
        let vector = &packed[..self.n * self.w];
        for at in 0..self.n {
            self.told[self.round - 2][at] = if at + 1 == self.number {
                rows[at] = self.vector;
                0
            } else if self.taken[0] >> at & 1 == 0 {
                MISSING
            } else {
                self.repair_row(at, vector, &mut rows[at])
            };
        }
    }

    fn repair_row(&self, at: usize, vector: &[u8], row: &mut [Word; COLUMNS]) -> u8 {
        let (n, t, w) = (self.n as u32, self.t as u32, self.w as u32);
        let checks = &self.checks[self.round % 2][at][..2 * self.t * self.w];
        let mut repaired = [0; ROOM];
        let (answer, changed, _) = linear::repair(n, t, w, vector, checks, &mut repaired);
        if answer != 0 {
            return NONE;
        }
        unpack(&repaired, self.w, &mut row[..self.n]);
        changed as u8
    }
}

/// The first w bytes of each word, one value after the other: the next one is written over what is too much.
fn packed(words: &[Word], w: usize) -> [u8; ROOM] {
    let mut bytes = [0; ROOM];
    for (k, word) in words.iter().enumerate() {
        bytes[k * w..][..8].copy_from_slice(&word.to_be_bytes());
    }
    bytes
}

/// The words whose first w bytes these are.
fn unpack(bytes: &[u8; ROOM], w: usize, words: &mut [Word]) {
    let first_bytes = Word::MAX << (64 - 8 * w);
    for (k, word) in words.iter_mut().enumerate() {
        let mut eight = [0; 8];
        eight.copy_from_slice(&bytes[k * w..][..8]);
        *word = Word::from_be_bytes(eight) & first_bytes;
    }
}

/// The value found most often in a column of the table, blank left out, the smallest on a tie; and how often. A guess that more than half
/// of the rows have is that value.
fn most_found(rows: &[[Word; COLUMNS]], k: usize, guess: Word) -> (Word, usize) {
    let times = rows.iter().filter(|row| row[k] == guess).count();
    if guess != BLANK && 2 * times > rows.len() {
        return (guess, times);
    }
    let mut values = [BLANK; COLUMNS];
    let values = &mut values[..rows.len()];
    for (value, row) in values.iter_mut().zip(rows) {
        *value = row[k];
    }
    values.sort_unstable();
    let mut most = (BLANK, 0);
    for same in values.chunk_by(|a, b| a == b) {
        if same[0] != BLANK && same.len() > most.1 {
            most = (same[0], same.len());
        }
    }
    most
}
