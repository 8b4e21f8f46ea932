//! The counts of refused frames, one for each slot, on records of random bits. What is expected stands here and is not the table's: under
//! 9 to 15 the slot's count is one higher, or stays at its top, and every other byte of the record is as before.

use crate::RUN;
use crate::archive::{self, Column, Identity, LONGEST_FRAME, Slot};
use crate::chance::Chance;
use crate::compare::{closed, same, same_record};
use crate::frames::{command_of, frame, frame_length};
use crate::record::{EMPTY, fill};
use std::array::from_fn;

pub const TOP: u32 = u32::MAX;
/// The ends of 32 bits, and where one more goes over into the next byte or into a sign.
const COUNTS: [u32; 7] = [0, 0xff, 0xffff, 0xff_ffff, 0x7fff_ffff, TOP - 1, TOP];

pub type Settings = (u32, u32, u32);
pub const GREATEST: Settings = (32, 10, 8);
/// n, t and w.
#[rustfmt::skip]
pub const SETTINGS: [Settings; 6] = [GREATEST, (32, 0, 1), (31, 10, 8), (7, 2, 3), (4, 1, 1), (2, 0, 4)];

/// How many frames were refused and counted, refused while their slot's count stayed at its top, and taken.
#[derive(Default)]
pub struct Frames {
    pub counted: u64,
    pub at_top: u64,
    pub taken: u64,
}

/// A record of random bits, but for these settings, number and round.
fn made_by_hand(chance: &mut Chance, (n, t, w): Settings, number: u32, round: u32) -> Column {
    let mut column = EMPTY;
    fill(&mut column, |bytes| chance.fill(bytes));
    let who = &mut column.who;
    (who.n, who.t, who.w, who.number, who.run) = (n, t, w, number, RUN);
    who.own[0] |= 1;
    column.round = round;
    column
}

/// Records of the three rounds, for each own number, or for the first, a middle one and the last.
pub fn records(chance: &mut Chance, settings: Settings, every_number: bool) -> Vec<Column> {
    let (n, _, _) = settings;
    let spread = [1, (n + 1) / 2, n];
    let mut records = vec![];
    for number in (1..=n).filter(|number| every_number || spread.contains(number)) {
        for round in 1..=3 {
            records.push(made_by_hand(chance, settings, number, round));
        }
    }
    records
}

fn other_slots(column: &Column) -> Vec<u32> {
    let Identity { n, number, .. } = column.who;
    (1..=n).filter(|slot| *slot != number).collect()
}

pub fn right_frame(column: &Column, slot: u32, round: u32) -> Vec<u8> {
    let Identity { t, w, .. } = column.who;
    let command = command_of(round);
    let length = frame_length(command, t, w).unwrap();
    frame(command, slot as u8, RUN, &vec![5; length - 4])
}

/// Frames that a column in one of the three rounds refuses 9 to 14, each with its number.
fn faulty_frames(column: &Column, slot: u32) -> Vec<(u32, Vec<u8>)> {
    let right = right_frame(column, slot, column.round);
    let value = right_frame(column, slot, 1);
    let with = |at: usize, byte: u8| {
        let mut other = right.clone();
        other[at] = byte;
        other
    };
    let mut frames = vec![
        (9, vec![]),
        (9, right[..3].to_vec()),
        (10, with(0, 0)),
        (10, with(0, 0x10)),
        (10, with(0, 0xff)),
        (11, [&right[..], &[5]].concat()),
        (11, value[..value.len() - 1].to_vec()),
        (12, with(1, 0)),
        (12, with(1, slot as u8 % 32 + 1)),
        (13, with(2, right[2] ^ 1)),
        (13, with(3, right[3] ^ 1)),
    ];
    let far = (1..=3).filter(|round| *round != column.round && *round != column.round + 1);
    frames.extend(far.map(|round| (14, right_frame(column, slot, round))));
    frames
}

/// Hands a frame in, and compares the answer and the whole record.
pub fn handed(column: &Column, slot: u32, lent: &[u8], answer: u32, expected: &Column) {
    let outcome = archive::take(column, slot, lent);
    same(
        "a slot and the answer to a frame in it",
        (slot, outcome.answer),
        (slot, answer),
        column,
    );
    same_record(
        &format!("answer {answer} in slot {slot}"),
        &outcome.column,
        expected,
    );
}

/// A frame that is refused for its own fault raises its slot's count, up to the top, and nothing else.
fn counted(column: &Column, slot: u32, lent: &[u8], answer: u32, frames: &mut Frames) {
    let mut expected = *column;
    let count = &mut expected.refused[slot as usize - 1];
    if *count == TOP {
        frames.at_top += 1;
    } else {
        *count += 1;
        frames.counted += 1;
    }
    handed(column, slot, lent, answer, &expected);
}

/// A frame that is not there yet stands in its slot, and no count moves.
fn taken(column: &Column, slot: u32, lent: &[u8], early: bool, frames: &mut Frames) {
    let mut expected = *column;
    let slots = if early {
        &mut expected.early
    } else {
        &mut expected.slots
    };
    let mut bytes = [0; LONGEST_FRAME];
    bytes[..lent.len()].copy_from_slice(lent);
    slots[slot as usize - 1] = Slot { taken: 1, bytes };
    handed(column, slot, lent, 0, &expected);
    frames.taken += 1;
}

/// Every refusal that is counted in one slot, and frames that are taken there: of the frames of the round and of the next that one is there
/// which is refused 15, and that one not which is taken.
fn in_slot(column: &Column, slot: u32, frames: &mut Frames) {
    for (answer, lent) in faulty_frames(column, slot) {
        counted(column, slot, &lent, answer, frames);
    }
    let k = slot as usize - 1;
    for round in column.round..=3.min(column.round + 1) {
        let lent = right_frame(column, slot, round);
        let early = round > column.round;
        let mut there = *column;
        there.slots[k].taken = if early { 0 } else { 255 };
        there.early[k].taken = if early { 255 } else { 0 };
        counted(&there, slot, &lent, 15, frames);
        let mut absent = *column;
        absent.slots[k].taken = there.early[k].taken;
        absent.early[k].taken = there.slots[k].taken;
        taken(&absent, slot, &lent, early, frames);
    }
}

/// Every slot, with each of these counts, while the others are anywhere, at 0, one below the top, or at it. For the greatest settings every
/// own number.
pub fn every_refusal(frames: &mut Frames) {
    let mut chance = Chance::new(61);
    for settings in SETTINGS {
        for mut column in records(&mut chance, settings, settings == GREATEST) {
            let anywhere = column.refused;
            for slot in other_slots(&column) {
                for others in [anywhere, [0; 32], [TOP - 1; 32], [TOP; 32]] {
                    for count in COUNTS {
                        column.refused = others;
                        column.refused[slot as usize - 1] = count;
                        in_slot(&column, slot, frames);
                    }
                }
            }
        }
    }
}

/// One count at its top, at each of the 32 places, and the others anywhere below: it stays, and the others rise when it is their turn.
pub fn one_at_top(frames: &mut Frames) {
    let mut chance = Chance::new(62);
    for settings in SETTINGS {
        for mut column in records(&mut chance, settings, false) {
            let below = column.refused.map(|count| count.min(TOP - 1));
            for k in 0..32 {
                column.refused = below;
                column.refused[k] = TOP;
                for slot in other_slots(&column) {
                    in_slot(&column, slot, frames);
                }
            }
        }
    }
}

/// A frame of any kind in any slot of the group or beside it.
fn any_frame(chance: &mut Chance, column: &Column) -> (u32, Vec<u8>) {
    let slot = chance.below(u64::from(column.who.n) + 2) as u32;
    let round = 1 + chance.below(3) as u32;
    let right = right_frame(column, slot, round);
    let mut faulty = faulty_frames(column, slot);
    let k = chance.below(2 * faulty.len() as u64) as usize;
    if k < faulty.len() {
        (slot, faulty.swap_remove(k).1)
    } else {
        (slot, right)
    }
}

/// A list of calls; answers of each slot how many frames were refused 9 to 15.
fn called(chance: &mut Chance, column: &mut Column) -> [u64; 32] {
    let mut refusals = [0; 32];
    for _ in 0..200 {
        match chance.below(80) {
            0 => *column = closed(column),
            1 => _ = archive::send(column, &mut [0; LONGEST_FRAME]),
            2 => _ = archive::result(column),
            _ => {
                let in_a_round = Column {
                    round: column.round.min(3),
                    ..*column
                };
                let (slot, lent) = any_frame(chance, &in_a_round);
                let outcome = archive::take(column, slot, &lent);
                if (9..=15).contains(&outcome.answer) {
                    refusals[slot as usize - 1] += 1;
                }
                *column = outcome.column;
            }
        }
    }
    refusals
}

/// Lists of calls of an opened column whose counts begin near their top: each ends where it began and one more for each frame that was
/// refused 9 to 15 in its slot, up to the top. Answers how many counts rose, and how many would have gone past the top.
pub fn lists(count: u64) -> (u64, u64) {
    let mut chance = Chance::new(65);
    let (mut rose, mut past) = (0, 0);
    for _ in 0..count {
        let (n, t, w) = chance.pick(&SETTINGS);
        let number = 1 + chance.below(n.into()) as u32;
        let opened = archive::open(n, t, w, number, RUN, &[1; 8][..w as usize]);
        let mut column = opened.column;
        let before: [u32; 32] = from_fn(|_| TOP - chance.below(6) as u32);
        column.refused = before;
        let refusals = called(&mut chance, &mut column);
        let whole: [u64; 32] = from_fn(|k| u64::from(before[k]) + refusals[k]);
        let expected = whole.map(|count| count.min(TOP.into()) as u32);
        same("counts after a list", &column.refused, &expected, &column);
        rose += (0..32).filter(|k| expected[*k] > before[*k]).count() as u64;
        past += whole.iter().filter(|count| **count > TOP.into()).count() as u64;
    }
    (rose, past)
}
