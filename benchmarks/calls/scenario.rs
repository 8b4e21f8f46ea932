//! What all columns of a group say in an exchange, drawn beforehand.

use crate::chance::Chance;
use crate::column::{Calls, Group, LONGEST_FRAME};
use crate::frames::{command_of, frame};
use crate::register::check_values;

pub const RUN: u16 = 0x1234;

/// What is wrong in the check rounds. Bad columns are the last t.
#[derive(Clone, Copy, PartialEq)]
pub enum Wrong {
    Nothing,
    /// The bad columns send the checks of one vector that differs from the true one in all bytes of the last t columns: the longest repair
    /// of a vector off at t columns, as its search goes on to column n.
    OneVector,
    /// The same with other bytes there in each one's vector.
    DifferentVectors,
    /// Column n sent column 1 another value than all others, who agree.
    OwnValue,
    /// The bad columns send check bytes at random: mostly no codeword is near.
    Random,
    /// The bad columns send nothing.
    Silent,
}

pub struct Scenario {
    pub group: Group,
    wrong: Wrong,
    /// The own values, one after the other.
    values: Vec<u8>,
    /// What column 1 hears of each column in each round; nothing of a silent one.
    frames: [Vec<Option<Vec<u8>>>; 3],
}

/// Other bytes than these, each of them.
fn other(bytes: &[u8], chance: &mut Chance) -> Vec<u8> {
    bytes
        .iter()
        .map(|byte| byte ^ (1 + chance.below(255) as u8))
        .collect()
}

fn checks_of(Group { n, t, w }: Group, vector: &[u8]) -> Vec<u8> {
    let (n, t, w) = (n as usize, t as usize, w as usize);
    let mut checks = vec![0; 2 * t * w];
    check_values(n, t, w, vector, &mut checks);
    checks
}

/// The vector with other bytes at the last t columns.
fn off_at_the_last(Group { n, t, w }: Group, vector: &[u8], chance: &mut Chance) -> Vec<u8> {
    let (same, last) = vector.split_at(((n - t) * w) as usize);
    [same, &other(last, chance)].concat()
}

impl Scenario {
    pub fn draw(group: Group, wrong: Wrong, chance: &mut Chance) -> Scenario {
        let Group { n, w, .. } = group;
        let values = other(&vec![0; (n * w) as usize], chance);
        let mut said: Vec<Vec<u8>> = values.chunks(w as usize).map(<[u8]>::to_vec).collect();
        if wrong == Wrong::OwnValue {
            said[n as usize - 1] = other(&said[n as usize - 1], chance);
        }
        let checks = all_checks(group, wrong, &values, chance);
        let framed = |round: u32, operands: &[Option<Vec<u8>>]| {
            let senders = (1..).zip(operands);
            let frame_of =
                |sender, operand: &Vec<u8>| frame(command_of(round), sender, RUN, operand);
            senders
                .map(|(sender, operand)| operand.as_ref().map(|bytes| frame_of(sender, bytes)))
                .collect()
        };
        let said: Vec<Option<Vec<u8>>> = said.into_iter().map(Some).collect();
        let frames = [framed(1, &said), framed(2, &checks), framed(3, &checks)];
        Scenario {
            group,
            wrong,
            values,
            frames,
        }
    }

    fn open<C: Calls>(&self, column: &mut C, number: u32) {
        let w = self.group.w as usize;
        let own = &self.values[(number as usize - 1) * w..][..w];
        assert_eq!(column.open(self.group, number, RUN, own), 0, "opening");
    }

    /// The frames that column 1 hears in a round, with their slots.
    pub fn heard(&self, round: u32) -> impl Iterator<Item = (u32, &[u8])> {
        let frames = (1..).zip(&self.frames[round as usize - 1]).skip(1);
        frames.filter_map(|(slot, frame)| Some((slot, frame.as_deref()?)))
    }

    /// Column 1 in a round, which has taken nothing in it.
    pub fn come_to<C: Calls>(&self, round: u32) -> C {
        let mut column = C::unopened();
        self.open(&mut column, 1);
        for before in 1..round {
            self.fill(&mut column, before);
            assert_eq!(column.close(), 0, "closing round {before}");
        }
        column
    }

    pub fn fill<C: Calls>(&self, column: &mut C, round: u32) {
        for (slot, frame) in self.heard(round) {
            assert_eq!(column.take(slot, frame), 0, "taking of {slot}");
        }
    }

    /// All calls of all columns in the three rounds: each sends, takes what the others sent, and closes. A bad column makes its calls as all
    /// do, but what the others take of it in the check rounds is what was drawn.
    pub fn exchange<C: Calls>(&self, columns: &mut [C]) {
        let mut sent = [([0; LONGEST_FRAME], 0); 32];
        for (number, column) in (1..).zip(&mut *columns) {
            self.open(column, number);
        }
        for round in 1..=3 {
            for ((buffer, length), column) in sent.iter_mut().zip(&*columns) {
                *length = column.send(buffer).expect("sending");
            }
            for (number, column) in (1..).zip(&mut *columns) {
                self.take_all(column, number, round, &sent);
                assert_eq!(column.close(), 0, "closing round {round}");
            }
        }
        for column in columns {
            assert_eq!(column.result(), 0, "result");
        }
    }

    fn take_all<C: Calls>(
        &self,
        column: &mut C,
        number: u32,
        round: u32,
        sent: &[([u8; LONGEST_FRAME], usize)],
    ) {
        let Group { n, t, .. } = self.group;
        let bad_from = if self.wrong == Wrong::Nothing || round == 1 {
            n + 1
        } else {
            n - t + 1
        };
        for slot in (1..=n).filter(|&slot| slot != number) {
            let at = slot as usize - 1;
            let frame = if slot < bad_from {
                let (buffer, length) = &sent[at];
                Some(&buffer[..*length])
            } else {
                self.frames[round as usize - 1][at].as_deref()
            };
            if let Some(frame) = frame {
                assert_eq!(column.take(slot, frame), 0, "taking of {slot}");
            }
        }
    }
}

/// The check bytes that column 1 hears of each column, in both check rounds.
fn all_checks(
    group: Group,
    wrong: Wrong,
    values: &[u8],
    chance: &mut Chance,
) -> Vec<Option<Vec<u8>>> {
    let true_checks = checks_of(group, values);
    let one_vector = off_at_the_last(group, values, chance);
    let mut checks = vec![Some(true_checks.clone()); group.n as usize];
    for bad in &mut checks[(group.n - group.t) as usize..] {
        *bad = match wrong {
            Wrong::Nothing | Wrong::OwnValue => Some(true_checks.clone()),
            Wrong::OneVector => Some(checks_of(group, &one_vector)),
            Wrong::DifferentVectors => {
                Some(checks_of(group, &off_at_the_last(group, values, chance)))
            }
            Wrong::Random => {
                let mut bytes = true_checks.clone();
                chance.fill(&mut bytes);
                Some(bytes)
            }
            Wrong::Silent => None,
        };
    }
    checks
}
