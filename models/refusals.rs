//! Where a call is turned down: the table of refusals, a line for each number, written apart from the library's definitions.

use crate::frames::{command_of, frame_length};

#[derive(Clone, Copy, Debug, PartialEq)]
pub enum Call {
    Open,
    Take,
    Send,
    Close,
    Result,
}

use Call::*;

/// Everything that a refusal may depend on. A call that has no slot, frame or buffer leaves these empty.
#[derive(Clone, Copy, Debug)]
pub struct Case<'a> {
    pub n: u32,
    pub t: u32,
    pub w: u32,
    pub number: u32,
    pub own: &'a [u8],
    pub round: u32,
    pub run: u16,
    pub slot: u32,
    pub frame: &'a [u8],
    /// Whether the frame of this slot's column is there: of the round, and of the round that follows.
    pub taken: bool,
    pub early: bool,
    pub room: usize,
}

impl Case<'_> {
    fn is_frame_of(&self, round: u32) -> bool {
        self.frame[0] == command_of(round)
    }
}

pub struct Line {
    number: u32,
    concerns: &'static [Call],
    applies: fn(&Case) -> bool,
}

const EVERY: &[Call] = &[Open, Take, Send, Close, Result];

/// From top to bottom; the first line that concerns the call and applies is its answer.
#[rustfmt::skip]
pub const LINES: &[Line] = &[
    Line { number: 1, concerns: EVERY, applies: |c| !(1..=32).contains(&c.n) },
    Line { number: 2, concerns: EVERY, applies: |c| u64::from(c.n) < 3 * u64::from(c.t) + 1 },
    Line { number: 3, concerns: EVERY, applies: |c| !(1..=8).contains(&c.w) },
    Line { number: 4, concerns: EVERY, applies: |c| !(1..=c.n).contains(&c.number) },
    Line { number: 5, concerns: &[Open], applies: |c| c.own.len() != c.w as usize },
    Line { number: 6, concerns: EVERY, applies: |c| c.own.iter().take(c.w as usize).all(|&b| b == 0) },
    Line { number: 7, concerns: &[Take, Send, Close], applies: |c| !(1..=3).contains(&c.round) },
    Line { number: 8, concerns: &[Take], applies: |c| !(1..=c.n).contains(&c.slot) || c.slot == c.number },
    Line { number: 9, concerns: &[Take], applies: |c| c.frame.len() < 4 },
    Line { number: 10, concerns: &[Take], applies: |c| frame_length(c.frame[0], c.t, c.w).is_none() },
    Line { number: 11, concerns: &[Take], applies: |c| frame_length(c.frame[0], c.t, c.w) != Some(c.frame.len()) },
    Line { number: 12, concerns: &[Take], applies: |c| u32::from(c.frame[1]) != c.slot },
    Line { number: 13, concerns: &[Take], applies: |c| u16::from_be_bytes([c.frame[2], c.frame[3]]) != c.run },
    Line { number: 14, concerns: &[Take], applies: |c| !c.is_frame_of(c.round) && !c.is_frame_of(c.round + 1) },
    Line { number: 15, concerns: &[Take], applies: |c| if c.is_frame_of(c.round) { c.taken } else { c.early } },
    Line { number: 16, concerns: &[Send], applies: |c| Some(c.room) < frame_length(command_of(c.round), c.t, c.w) },
    Line { number: 17, concerns: &[Result], applies: |c| c.round != 4 },
];

pub fn answer(call: Call, case: &Case) -> u32 {
    LINES
        .iter()
        .find(|line| line.concerns.contains(&call) && (line.applies)(case))
        .map_or(0, |line| line.number)
}

/// Counts an answer to a frame of a slot: under 9 to 15 the slot's count is one more, up to its top. These come after 8, so that the slot
/// has one.
pub fn count_refusal(refused: &mut [u32], slot: u32, answer: u32) {
    if (9..=15).contains(&answer) {
        let count = &mut refused[slot as usize - 1];
        *count = count.saturating_add(1);
    }
}
