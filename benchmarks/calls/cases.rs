//! The calls that are timed, and how.
//!
//! A call is timed by itself, on a copy of a record that was prepared beforehand, made just before the clock starts. Taking is timed over
//! the frames of all other columns, one after the other, and divided by their number. Each case has several inputs, which go round.

use crate::chance::Chance;
use crate::clock::microseconds;
use crate::column::{Calls, Group, LONGEST_FRAME};
use crate::scenario::{Scenario, Wrong};
use std::hint::black_box;

pub const CALLS: usize = 1000;
pub const EXCHANGES: usize = 50;
pub const INPUTS: usize = 16;
/// The calls and exchanges of a case are spread over so many passes through all cases, since a machine is slower now and then.
pub const PASSES: usize = 5;

pub const GREATEST: Group = Group { n: 31, t: 10, w: 8 };
pub const SMALLEST: Group = Group { n: 4, t: 1, w: 4 };

/// Each of a round.
#[derive(Clone, Copy)]
pub enum Call {
    Take(u32),
    Send(u32),
    Close(u32),
}

use Call::{Close, Send, Take};

#[derive(Clone, Copy)]
pub struct Case {
    pub name: &'static str,
    pub call: Call,
    pub wrong: Wrong,
}

const fn case(name: &'static str, call: Call, wrong: Wrong) -> Case {
    Case { name, call, wrong }
}

#[rustfmt::skip]
pub const CASES: [Case; 11] = [
    case("take a value", Take(1), Wrong::Nothing),
    TAKE_CHECKS,
    case("send checks", Send(2), Wrong::Nothing),
    case("close round one", Close(1), Wrong::Nothing),
    CLOSE_TWO,
    case("close round three, all agree", Close(3), Wrong::Nothing),
    case("close round two, t senders off at the last t columns, one vector", Close(2), Wrong::OneVector),
    CLOSE_TWO_OFF,
    case("close round two, own V wrong at one place", Close(2), Wrong::OwnValue),
    case("close round two, t senders random", Close(2), Wrong::Random),
    case("close round two, t senders silent", Close(2), Wrong::Silent),
];

pub const TAKE_CHECKS: Case = case("take checks", Take(2), Wrong::Nothing);

pub const CLOSE_TWO: Case = case("close round two, all agree", Close(2), Wrong::Nothing);

pub const CLOSE_TWO_OFF: Case = case(
    "close round two, t senders off at the last t columns, t vectors",
    Close(2),
    Wrong::DifferentVectors,
);

/// What is wrong in the exchanges that are timed.
pub const EXCHANGED: [(&str, Wrong); 3] = [
    ("all good", Wrong::Nothing),
    ("t bad, one vector", Wrong::OneVector),
    ("t bad, t vectors", Wrong::DifferentVectors),
];

/// The inputs of a case, the same for all programs: what is said, and column 1's record before the call.
pub struct Prepared<C> {
    call: Call,
    inputs: Vec<(Scenario, C)>,
}

impl<C: Calls> Prepared<C> {
    pub fn new(case: Case, group: Group) -> Prepared<C> {
        let mut chance = Chance::new(7);
        let prepare = |_| {
            let scenario = Scenario::draw(group, case.wrong, &mut chance);
            let column = match case.call {
                Take(round) | Send(round) => scenario.come_to(round),
                Close(round) => {
                    let mut column = scenario.come_to(round);
                    scenario.fill(&mut column, round);
                    column
                }
            };
            (scenario, column)
        };
        Prepared {
            call: case.call,
            inputs: (0..INPUTS).map(prepare).collect(),
        }
    }

    /// Microseconds of one call.
    pub fn time(&self, turn: usize) -> f64 {
        let (scenario, column) = &self.inputs[turn % INPUTS];
        let mut column = black_box(*column);
        let mut buffer = [0; LONGEST_FRAME];
        match self.call {
            Take(round) => {
                let frames: Vec<(u32, &[u8])> = scenario.heard(round).collect();
                let all = microseconds(|| {
                    for (slot, frame) in black_box(&frames) {
                        black_box(column.take(*slot, frame));
                    }
                });
                black_box(&column);
                all / frames.len() as f64
            }
            Send(_) => microseconds(|| column.send(black_box(&mut buffer))),
            Close(_) => {
                let time = microseconds(|| column.close());
                black_box(&column);
                time
            }
        }
    }

    /// What the call answers to each input, the record after it, and the frame that it wrote.
    pub fn outcomes(&self) -> impl Iterator<Item = (Vec<u32>, C, Vec<u8>)> {
        self.inputs.iter().map(|(scenario, column)| {
            let mut column = *column;
            let mut buffer = vec![0; LONGEST_FRAME];
            let answers = match self.call {
                Take(round) => scenario
                    .heard(round)
                    .map(|(slot, frame)| column.take(slot, frame))
                    .collect(),
                Send(_) => vec![column.send(&mut buffer).err().unwrap_or(0)],
                Close(_) => vec![column.close()],
            };
            (answers, column, buffer)
        })
    }
}

/// Whole exchanges of a group, the same for all programs.
pub struct Exchanges<C> {
    scenarios: Vec<Scenario>,
    columns: Vec<C>,
}

impl<C: Calls> Exchanges<C> {
    pub fn new(group: Group, wrong: Wrong) -> Exchanges<C> {
        let mut chance = Chance::new(9);
        let scenario = |_| Scenario::draw(group, wrong, &mut chance);
        Exchanges {
            scenarios: (0..INPUTS).map(scenario).collect(),
            columns: vec![C::unopened(); group.n as usize],
        }
    }

    /// Microseconds of one exchange.
    pub fn time(&mut self, turn: usize) -> f64 {
        let scenario = &self.scenarios[turn % INPUTS];
        let columns = black_box(&mut self.columns);
        microseconds(|| scenario.exchange(columns))
    }

    /// The columns as the last exchange left them.
    pub fn columns(&self) -> &[C] {
        &self.columns
    }
}
