//! The plain column's calls as the benchmarks make them.

use crate::column::{Calls, Ended, Group};
use crate::plain_column::{Held, PlainColumn};
use std::hint::black_box;

impl Calls for PlainColumn {
    fn unopened() -> PlainColumn {
        PlainColumn::new()
    }

    fn open(&mut self, Group { n, t, w }: Group, number: u32, run: u16, own: &[u8]) -> u32 {
        PlainColumn::open(self, n, t, w, number, run, own)
    }

    fn take(&mut self, slot: u32, frame: &[u8]) -> u32 {
        PlainColumn::take(self, slot, frame)
    }

    fn send(&self, buffer: &mut [u8]) -> Result<usize, u32> {
        PlainColumn::send(self, buffer)
    }

    fn close(&mut self) -> u32 {
        PlainColumn::close(self)
    }

    fn result(&self) -> u32 {
        black_box(PlainColumn::result(self)).err().unwrap_or(0)
    }

    fn ended(&self) -> Ended {
        let mut ended = Ended {
            answer: 0,
            values: [0; 256],
            confidences: [0; 32],
            told_two: [0; 32],
            told_three: [0; 32],
        };
        match PlainColumn::result(self) {
            Err(answer) => ended.answer = answer,
            Ok(held) => fill(&mut ended, &held),
        }
        ended
    }

    fn refused(&self, slot: u32) -> Option<u32> {
        PlainColumn::refused(self, slot)
    }
}

fn fill(ended: &mut Ended, held: &Held) {
    let (n, w) = (held.values.len(), held.w);
    for (bytes, value) in ended.values.chunks_mut(w).zip(held.values) {
        bytes.copy_from_slice(&value.to_be_bytes()[..w]);
    }
    ended.confidences[..n].copy_from_slice(held.confidences);
    ended.told_two[..n].copy_from_slice(held.told_two);
    ended.told_three[..n].copy_from_slice(held.told_three);
}
