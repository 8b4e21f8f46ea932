//! Records of random bits: no call on them does anything but what the table says.

use crate::GROUPS;
use crate::archive::Column;
use crate::chance::Chance;
use crate::compare::{asked, closed, sent, taken};
use crate::frames::{command_of, frame_length};
use crate::record::{EMPTY, fill};
use crate::settings::{BAD, NUMBERS, SIZES};

pub fn damaged_records(count: u64) -> u64 {
    let mut chance = Chance::new(41);
    for k in 0..count {
        let column = damaged(&mut chance);
        let any_slot = chance.word() as u32;
        let slot = if chance.one_in(8) {
            any_slot
        } else {
            any_slot % 34
        };
        taken(&column, slot, &likely_frame(&mut chance, &column, slot));
        sent(&column, chance.below(201) as usize, None);
        asked(&column);
        // Closing takes the time of a hundred other calls.
        if k % 16 == 0 {
            closed(&column);
        }
    }
    count
}

/// A record of random bits: all of it, or all but settings that pass, or all but these with one of them spoiled. Counts of refused frames
/// are at their top here and there.
fn damaged(chance: &mut Chance) -> Column {
    let mut column = EMPTY;
    fill(&mut column, |bytes| chance.fill(bytes));
    if !chance.one_in(8) {
        let who = &mut column.who;
        (who.n, who.t, who.w) = chance.pick(&GROUPS);
        who.number = 1 + chance.below(who.n.into()) as u32;
        column.round = 1 + chance.below(4) as u32;
    }
    for slot in column.slots.iter_mut().chain(&mut column.early) {
        slot.taken *= chance.below(2) as u8;
    }
    for count in &mut column.refused {
        if chance.one_in(4) {
            *count = u32::MAX;
        }
    }
    let bits = chance.word() as u32;
    let who = &mut column.who;
    match chance.below(11) {
        0 => who.n = bits,
        1 => who.t = chance.pick(&BAD),
        2 => who.w = chance.pick(&SIZES),
        3 => who.number = chance.pick(&NUMBERS),
        4 => column.round = bits,
        5 => who.own = [0; 8],
        _ => {}
    }
    column
}

/// A frame for a slot of a record: each part of it is mostly right, so that every line of the table is reached.
fn likely_frame(chance: &mut Chance, column: &Column, slot: u32) -> Vec<u8> {
    let mut lent = vec![0; 200];
    chance.fill(&mut lent);
    if !chance.one_in(8) {
        lent[0] = command_of(1 + chance.below(3) as u32);
    }
    if !chance.one_in(8) {
        lent[1] = slot as u8;
    }
    if !chance.one_in(8) {
        lent[2..4].copy_from_slice(&column.who.run.to_be_bytes());
    }
    let right = frame_length(lent[0], column.who.t.min(10), column.who.w.min(8)).unwrap_or(0);
    lent.truncate(if chance.one_in(4) {
        chance.below(201) as usize
    } else {
        right
    });
    lent
}
