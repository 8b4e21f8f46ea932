//! What a reader is handed: good columns' frames, repeated, foreign or damaged, and the liars' own.

use crate::chance::Chance;
use crate::exchange::{Model, Value};
use crate::frames::{command_of, frame};
use crate::group::{Group, value};
use crate::pair::{Event, Pair};

impl Group {
    /// What a reader is handed at a time, in a random order.
    pub fn events(&self, chance: &mut Chance, reader: &Pair) -> Vec<Event> {
        let mut events = Vec::new();
        for (round, event) in self.frames_for(reader) {
            if self.in_step && round > reader.model.round {
                continue;
            }
            let is_new = reader.handed.iter().all(|handed| handed.event != *event);
            if chance.one_in(if is_new { 2 } else { 8 }) {
                events.push(event.clone());
            }
            if chance.one_in(16) {
                events.push(self.harmless(chance, event));
            }
            if !self.reliable && chance.one_in(16) {
                events.push(damaged(chance, event));
            }
        }
        for &slot in &self.bad {
            if chance.one_in(2) {
                events.push(self.lie_in(chance, slot, &reader.model));
            }
        }
        events.push((chance.below(40) as u32, vec![0x11, 1, 0, 0]));
        if self.reliable {
            events.retain(|event| self.is_fair(event));
        }
        chance.shuffle(&mut events);
        events
    }

    /// A liar's frame for a reader's round or for the one that follows, as if the reader closed now; at times with another command.
    fn lie_in(&self, chance: &mut Chance, slot: u32, reader: &Model) -> Event {
        let mut reader = reader.clone();
        if reader.round < 3 && chance.one_in(3) {
            reader.close();
        }
        let round = if chance.one_in(12) {
            1 + chance.below(3) as u32
        } else {
            reader.round
        };
        let operand = self.lie(chance, &reader);
        let lie = (
            slot,
            frame(command_of(round), slot as u8, self.run, &operand),
        );
        if chance.one_in(12) {
            damaged(chance, &lie)
        } else {
            lie
        }
    }

    /// A liar's operand for one reader in its round: the plot, or whatever comes.
    fn lie(&self, chance: &mut Chance, reader: &Model) -> Vec<u8> {
        let plotting = !chance.one_in(3);
        match (reader.round, plotting) {
            (1, true) => self.plot.clone(),
            (1, false) if chance.one_in(2) => vec![0; self.w as usize],
            (1, false) => value(chance, self.w),
            (_, true) => reader.checks(&self.plotted(reader)),
            (_, false) => self.any_checks(chance, reader),
        }
    }

    /// The vector that a good column could have, were the liars' values the plot.
    fn plotted(&self, reader: &Model) -> Vec<Value> {
        let mut vector = vector_of(reader, reader.round);
        for &k in &self.bad {
            vector[k as usize - 1] = self.plot.clone();
        }
        vector
    }

    /// The checks of a vector near some good column's, mostly.
    fn any_checks(&self, chance: &mut Chance, reader: &Model) -> Vec<u8> {
        let good = self.good.iter().map(|column| &column.model);
        let mut there: Vec<&Model> = good.filter(|model| model.round >= reader.round).collect();
        there.push(reader);
        let mut vector = vector_of(chance.pick(&there), reader.round);
        for _ in 0..chance.below(u64::from(self.t) + 2) {
            let k = chance.below(self.n.into()) as usize;
            vector[k] = if chance.one_in(3) {
                vec![0; self.w as usize]
            } else {
                value(chance, self.w)
            };
        }
        let mut checks = reader.checks(&vector);
        if chance.one_in(4) && !checks.is_empty() {
            let at = chance.below(checks.len() as u64) as usize;
            checks[at] ^= 1 + chance.below(255) as u8;
        }
        if chance.one_in(8) {
            chance.fill(&mut checks);
        }
        checks
    }

    /// A frame of another run, or one cut below its header, in a good column's slot.
    fn harmless(&self, chance: &mut Chance, (slot, frame): &Event) -> Event {
        let mut other = frame.clone();
        if chance.one_in(2) {
            other[2 + chance.below(2) as usize] ^= 1 + chance.below(255) as u8;
        } else {
            other.truncate(chance.below(4) as usize);
        }
        (*slot, other)
    }
}

/// The vector whose checks a column sends in a round.
fn vector_of(column: &Model, round: u32) -> Vec<Value> {
    if round == 2 {
        column.heard.clone()
    } else {
        column.agreed.clone()
    }
}

fn damaged(chance: &mut Chance, (slot, frame): &Event) -> Event {
    let mut other = frame.clone();
    let at = chance.below(other.len() as u64) as usize;
    other[at] ^= 1 << chance.below(8);
    match chance.below(4) {
        0 => other.truncate(at),
        1 => other.push(at as u8),
        _ => {}
    }
    (*slot, other)
}
