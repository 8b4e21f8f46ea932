//! Two programs' columns in random exchanges, with damaged, early, late, repeated and missing frames, or with all of them and two parties in
//! round three: each call must be answered alike.

use crate::chance::Chance;
use crate::column::{Calls, Group, LONGEST_FRAME};
use crate::frames::{command_of, frame};
use crate::register::check_values;

const EXCHANGES: usize = 20_000;
const RUN: u16 = 7;

/// A group, which column is looked at, the values that all columns say, and others at up to t places, which some say in their stead.
struct Drawn {
    group: Group,
    number: u32,
    values: Vec<u8>,
    others: Vec<u8>,
}

impl Drawn {
    fn new(chance: &mut Chance) -> Drawn {
        let n = 1 + chance.below(32) as u32;
        let t = chance.below(u64::from((n - 1) / 3 + 1)) as u32;
        let w = 1 + chance.below(8) as u32;
        let mut values = vec![0; (n * w) as usize];
        chance.fill(&mut values);
        // The last byte of each value is its column's number, so that none is blank.
        for (number, value) in (1..).zip(values.chunks_mut(w as usize)) {
            value[w as usize - 1] = number;
        }
        let mut others = values.clone();
        for _ in 0..t {
            let at = chance.below(u64::from(n * w)) as usize;
            others[at] = chance.word() as u8;
        }
        Drawn {
            group: Group { n, t, w },
            number: 1 + chance.below(n.into()) as u32,
            values,
            others,
        }
    }

    fn value(&self, number: u32) -> &[u8] {
        let w = self.group.w as usize;
        &self.values[(number as usize - 1) * w..][..w]
    }

    /// The check bytes of a vector.
    fn checks(&self, vector: &[u8]) -> Vec<u8> {
        let Group { n, t, w } = self.group;
        let (n, t, w) = (n as usize, t as usize, w as usize);
        let mut checks = vec![0; 2 * t * w];
        check_values(n, t, w, vector, &mut checks);
        checks
    }

    /// What a sender says: the values or the others, as they are or off at some places, blank at some, or any bytes.
    fn operand(&self, chance: &mut Chance, round: u32, sender: u32) -> Vec<u8> {
        let Group { n, t, w } = self.group;
        let (n, t, w) = (n as usize, t as usize, w as usize);
        let mut vector = chance.pick(&[&self.values, &self.others]).clone();
        let places = if chance.one_in(2) { 0 } else { t + 2 };
        let blank = chance.one_in(2);
        for _ in 0..chance.below(places as u64 + 1) {
            let at = chance.below((n * w) as u64) as usize;
            vector[at] = if blank { 0 } else { chance.word() as u8 };
        }
        if round == 1 {
            return vector[(sender as usize - 1) * w..][..w].to_vec();
        }
        let mut checks = self.checks(&vector);
        if chance.one_in(16) {
            chance.fill(&mut checks);
        }
        checks
    }

    /// A frame for a slot: of the round or another one, some with a fault.
    fn frame(&self, chance: &mut Chance, round: u32, slot: u32) -> Vec<u8> {
        let of = chance.pick(&[round, round, round, round + 1, round + 2, 1, 2]);
        let of = of.min(3);
        let mut frame = frame(
            command_of(of),
            slot as u8,
            RUN,
            &self.operand(chance, of, slot),
        );
        if chance.one_in(8) {
            let at = chance.below(4) as usize;
            frame[at] ^= 1 << chance.below(8);
        }
        if chance.one_in(16) {
            frame.truncate(chance.below(frame.len() as u64) as usize);
        }
        if chance.one_in(16) {
            frame.push(0);
        }
        frame
    }

    /// What the column hears in a round: any slots and frames, or every slot's own, in round three of either party.
    fn heard(&self, chance: &mut Chance, round: u32, whole: bool) -> Vec<(u32, Vec<u8>)> {
        let n = self.group.n;
        if !whole || round > 3 {
            let count = chance.below(3 * u64::from(n));
            let any = |_| {
                let slot = chance.below(u64::from(n) + 2) as u32;
                (slot, self.frame(chance, round, slot.clamp(1, n)))
            };
            return (0..count).map(any).collect();
        }
        let own = |slot| {
            let operand = match round {
                1 => self.value(slot).to_vec(),
                2 => self.checks(&self.values),
                _ => self.checks(chance.pick(&[&self.values, &self.others])),
            };
            (slot, frame(command_of(round), slot as u8, RUN, &operand))
        };
        (1..=n).map(own).collect()
    }
}

/// An opening by any settings and own value, in range or not.
fn compare_opening<A: Calls, B: Calls>(chance: &mut Chance) {
    let (n, t, w) = (chance.below(35), chance.below(12), chance.below(10));
    let (n, t, w) = (n as u32, t as u32, w as u32);
    let number = chance.below(u64::from(n) + 2) as u32;
    let mut own = vec![0; chance.pick(&[w, w, w, w + 1, 0]) as usize];
    if !chance.one_in(4) {
        chance.fill(&mut own);
    }
    let group = Group { n, t, w };
    let answer = A::unopened().open(group, number, RUN, &own);
    let other = B::unopened().open(group, number, RUN, &own);
    assert_eq!(answer, other, "opening {n}, {t}, {w}, {number}, {own:?}");
}

/// One exchange of one column in both programs.
fn compare<A: Calls, B: Calls>(chance: &mut Chance) -> usize {
    let drawn = Drawn::new(chance);
    let Drawn { group, number, .. } = drawn;
    let (mut a, mut b) = (A::unopened(), B::unopened());
    let own = drawn.value(number);
    assert_eq!(a.open(group, number, RUN, own), 0);
    assert_eq!(b.open(group, number, RUN, own), 0);
    let whole = chance.one_in(2);
    let mut calls = 1;
    for round in 1..=4 {
        let (mut sent, mut other) = ([0xa5; LONGEST_FRAME], [0xa5; LONGEST_FRAME]);
        let room = chance.pick(&[LONGEST_FRAME, 4, 20]);
        let answers = (a.send(&mut sent[..room]), b.send(&mut other[..room]));
        assert_eq!(answers.0, answers.1, "sending in round {round}");
        assert_eq!(sent, other, "frame of round {round}");
        for (slot, frame) in drawn.heard(chance, round, whole) {
            let answers = (a.take(slot, &frame), b.take(slot, &frame));
            assert_eq!(answers.0, answers.1, "taking {frame:?} of {slot}");
            calls += 1;
        }
        assert_eq!(a.ended(), b.ended(), "result in round {round}");
        assert_eq!(a.close(), b.close(), "closing round {round}");
        calls += 3;
    }
    assert_eq!(a.ended(), b.ended(), "result");
    for slot in 0..=group.n + 1 {
        assert_eq!(a.refused(slot), b.refused(slot), "refused of {slot}");
    }
    calls
}

/// What was compared, in words.
pub fn compared<A: Calls, B: Calls>() -> String {
    let mut chance = Chance::new(11);
    for _ in 0..EXCHANGES {
        compare_opening::<A, B>(&mut chance);
    }
    let calls: usize = (0..EXCHANGES).map(|_| compare::<A, B>(&mut chance)).sum();
    format!(
        "{EXCHANGES} random openings, and as many exchanges of one column, {calls} calls: both programs answer alike"
    )
}
