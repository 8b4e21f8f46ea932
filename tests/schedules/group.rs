//! A group whose columns go at their own pace, whether the conditions of the promises are met, and the promises.

use crate::archive;
use crate::chance::Chance;
use crate::exchange::{Value, agree};
use crate::pair::{Event, Pair, pair};

/// A group: its good columns, and the numbers of the bad ones.
pub struct Group {
    pub n: u32,
    pub t: u32,
    pub w: u32,
    pub run: u16,
    pub good: Vec<Pair>,
    pub bad: Vec<u32>,
    /// The value that all liars would have the group believe of them, by some readers and not by others.
    pub plot: Value,
    /// A good column waits for every good frame of its round, and the slots of good columns have nothing else of the run.
    pub reliable: bool,
    /// No good frame is handed before its round.
    pub in_step: bool,
}

/// A value that is not blank, mostly out of a few, so that values meet.
pub fn value(chance: &mut Chance, w: u32) -> Value {
    let mut value = vec![0; w as usize];
    let last = value.len() - 1;
    value[last] = 1 + chance.below(3) as u8;
    if chance.one_in(2) {
        chance.fill(&mut value);
        value[0] |= 1;
    }
    value
}

pub fn group(chance: &mut Chance, n: u32, t: u32, w: u32) -> Group {
    let run = chance.word() as u16;
    let mut numbers: Vec<u32> = (1..=n).collect();
    chance.shuffle(&mut numbers);
    // Now and then more are bad than the group bears: the model is followed all the same.
    let count = if chance.one_in(6) {
        chance.below(n.into())
    } else {
        chance.below(u64::from(t) + 1)
    };
    let bad = numbers.split_off((n as u64 - count) as usize);
    let good = numbers
        .iter()
        .map(|&number| pair(n, t, w, number, run, &value(chance, w)))
        .collect();
    Group {
        n,
        t,
        w,
        run,
        good,
        bad,
        plot: value(chance, w),
        reliable: !chance.one_in(4),
        in_step: chance.one_in(4),
    }
}

impl Group {
    /// The frames that the other good columns have sent, each with its round.
    pub fn frames_for(&self, reader: &Pair) -> impl Iterator<Item = (u32, &Event)> {
        let number = reader.model.number;
        let others = self
            .good
            .iter()
            .filter(move |sender| sender.model.number != number);
        others.flat_map(|sender| (1..).zip(&sender.sent))
    }

    /// Whether a good column's slot may have the frame beside its own: one of another run, or one without a run.
    pub fn is_foreign(&self, frame: &[u8]) -> bool {
        frame.len() < 4 || frame[2..4] != self.run.to_be_bytes()
    }

    /// Whether the promises bear it: in a good column's slot come its own frames, at any time, and frames of another run or of none; in
    /// other slots anything.
    pub fn is_fair(&self, event: &Event) -> bool {
        let good = self
            .good
            .iter()
            .find(|column| column.model.number == event.0);
        good.is_none_or(|column| column.sent.contains(event) || self.is_foreign(&event.1))
    }

    /// Any good column that has not finished, so that each goes at its own pace.
    pub fn next_reader(&self, chance: &mut Chance) -> Option<usize> {
        let readers: Vec<usize> = (0..self.good.len())
            .filter(|k| self.good[*k].model.round < 4)
            .collect();
        (!readers.is_empty()).then(|| chance.pick(&readers))
    }

    /// A reader's turn: it is handed something, and closes its round or waits for more.
    pub fn turn(&mut self, chance: &mut Chance, k: usize) {
        for event in self.events(chance, &self.good[k]) {
            self.good[k].take(event);
        }
        let may_close = !self.reliable || self.has_all(&self.good[k]);
        if may_close && chance.one_in(2) {
            self.good[k].close();
        }
    }

    /// Whether every good frame of the reader's round was handed to it.
    fn has_all(&self, reader: &Pair) -> bool {
        let round = reader.model.round;
        let handed = self
            .frames_for(reader)
            .filter(|(of, frame)| *of == round && reader.was_handed(frame, round, 1));
        handed.count() == self.good.len() - 1
    }

    /// Whether every good frame was handed to every other good column in its round or at most so many rounds before, and nothing was handed
    /// that the promises do not bear.
    pub fn is_in_time(&self, ahead: u32) -> bool {
        self.good.iter().all(|reader| {
            let mut frames = self.frames_for(reader);
            frames.all(|(round, frame)| reader.was_handed(frame, round, ahead))
                && reader
                    .handed
                    .iter()
                    .all(|handed| self.is_fair(&handed.event))
        })
    }

    /// What rounds two and three tell of a good sender is at most the count of bad columns, and no mark, which is above every count.
    /// Answers how many numbers were looked at, and how many of these are that count, where it is not 0.
    pub fn told_of_good(&self) -> (u64, u64) {
        let bad = self.bad.len() as u8;
        let (mut numbers, mut highest) = (0, 0);
        for reader in &self.good {
            let held = archive::result(&reader.column);
            for sender in self.good.iter().map(|sender| sender.model.number) {
                let k = sender as usize - 1;
                for told in [held.told_two[k], held.told_three[k]] {
                    let Group { n, t, w, .. } = self;
                    assert!(
                        told <= bad,
                        "{told} told of a good sender in a group of {n}, {t}, {w} with {bad} bad columns"
                    );
                    numbers += 1;
                    highest += u64::from(told == bad && bad > 0);
                }
            }
        }
        (numbers, highest)
    }

    /// The three promises; answers how many pairs of beliefs were compared, and how many of these differ in confidence.
    pub fn promises(&self) -> (u64, u64) {
        let (mut compared, mut apart) = (0, 0);
        for reader in &self.good {
            for about in &self.good {
                let belief = &reader.model.held[about.model.number as usize - 1];
                assert_eq!(
                    *belief,
                    (about.model.own.clone(), 2),
                    "a good column's value"
                );
            }
            for other in &self.good {
                for (mine, theirs) in reader.model.held.iter().zip(&other.model.held) {
                    let Group { n, t, w, .. } = self;
                    assert!(
                        agree(mine, theirs),
                        "{mine:?} and {theirs:?} in a group of {n}, {t}, {w}"
                    );
                    compared += 1;
                    apart += u64::from(mine.1 != theirs.1);
                }
            }
        }
        (compared, apart)
    }
}
