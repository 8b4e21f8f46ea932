//! Frames of every kind at every point of an exchange.

use crate::RUN;
use crate::archive::{self, Column};
use crate::chance::Chance;
use crate::compare::{closed, same, taken};
use crate::division;
use crate::frames::{command_of, frame, frame_length};

/// The records of rounds 1 to 4 of one exchange, each with the frames of all but two columns taken. Columns of an even number are ahead of
/// the others: their frames of rounds two and three come early.
pub fn rounds(n: u32, t: u32, w: u32, number: u32, left_out: [u32; 2]) -> Vec<Column> {
    let mut chance = Chance::new(n.into());
    let mut value = [0u8; 8];
    chance.fill(&mut value);
    value[0] |= 1;
    let opened = archive::open(n, t, w, number, RUN, &value[..w as usize]);
    same("opening", opened.answer, 0, &opened.column);
    let mut column = opened.column;
    let mut records = Vec::new();
    for round in 1..=3 {
        for slot in (1..=n).filter(|slot| *slot != number && !left_out.contains(slot)) {
            let ahead = (slot + 1) % 2;
            let first = if round == 1 { 1 } else { round + ahead };
            for command in (first..=3.min(round + ahead)).map(command_of) {
                let mut operand = vec![0; frame_length(command, t, w).unwrap() - 4];
                chance.fill(&mut operand);
                let outcome = taken(&column, slot, &frame(command, slot as u8, RUN, &operand));
                same("a right frame", outcome.answer, 0, &column);
                column = outcome.column;
            }
        }
        records.push(column);
        column = closed(&column);
    }
    records.push(column);
    records
}

/// Every length and command, in every round and slot, with either sender byte, with the right and another run, and with the sender's frames
/// of this round and of the next there or not. Where one of these is there without the other, the lengths are those about a right one: all
/// of them would take twice the time.
pub fn all_frames(n: u32, t: u32, w: u32) -> u64 {
    let number = (n + 1) / 2;
    let sender = if number == n { 1 } else { n };
    let other = (1..=n).find(|k| *k != number && *k != sender).unwrap_or(0);
    let all: Vec<usize> = (0..=400).collect();
    let near = near_lengths(t, w);
    let mut compared = 0;
    for record in rounds(n, t, w, number, [sender, other]) {
        for slot in [sender, other, number, 0, n + 1] {
            for (mark, early) in [(0, 0), (0, 1), (1, 0), (1, 1)] {
                let lengths = if mark == early { &all } else { &near };
                let mut column = record;
                column.slots[sender as usize - 1].taken = mark;
                column.early[sender as usize - 1].taken = early;
                for byte in [sender, other] {
                    for run in [RUN, RUN ^ 0x0100] {
                        compared += all_commands(&column, slot, byte as u8, run, lengths);
                    }
                }
            }
        }
    }
    compared
}

/// The lengths of a header and of each command's frame, with those beside them.
fn near_lengths(t: u32, w: u32) -> Vec<usize> {
    let frames = [1, 2, 3].map(|round| frame_length(command_of(round), t, w).unwrap());
    let is_near =
        |length: &usize| *length <= 5 || frames.iter().any(|right| length.abs_diff(*right) <= 1);
    (0..=400).filter(is_near).collect()
}

/// Frames of every command and of these lengths with one header, whose own bytes are kept.
fn all_commands(column: &Column, slot: u32, sender: u8, run: u16, lengths: &[usize]) -> u64 {
    let mut bytes = [0u8; 400];
    Chance::new(slot.into()).fill(&mut bytes);
    for command in 0..=255 {
        bytes[..4].copy_from_slice(&frame(command, sender, run, &[]));
        let before = bytes;
        for &length in lengths {
            taken(column, slot, &bytes[..length]);
        }
        same("the frame lent", bytes, before, column);
    }
    256 * lengths.len() as u64
}

/// The longest frame: 164 bytes are taken, 165 not, and a buffer must hold 164.
pub fn longest_frame() -> u64 {
    let column = rounds(31, 10, 8, 16, [31, 1])[1];
    let long = frame(0x22, 31, RUN, &[5; 161]);
    same(
        "164 bytes",
        archive::take(&column, 31, &long[..164]).answer,
        0,
        &column,
    );
    same(
        "165 bytes",
        archive::take(&column, 31, &long).answer,
        11,
        &column,
    );
    same(
        "a buffer of 163",
        archive::send(&column, &mut [9; 163]),
        16,
        &column,
    );
    same(
        "a buffer of 164",
        archive::send(&column, &mut [9; 164]),
        0,
        &column,
    );
    4
}

/// Hands a column one frame in each of these slots, all with one answer.
fn handed(column: &Column, command: u8, operands: &[(u32, &[u8])], answer: u32) -> Column {
    let mut column = *column;
    for &(slot, operand) in operands {
        let outcome = taken(&column, slot, &frame(command, slot as u8, RUN, operand));
        same("a named frame", outcome.answer, answer, &column);
        column = outcome.column;
    }
    column
}

/// All checks of round two reach column 2 of four while it takes values, and none come later; the value of column 4 never comes. Each is
/// taken once and counts once: not for a value, in Y, and not again in round three, which has the own row alone, where nothing is believed
/// and all others are told as missing. Two rounds ahead is too early.
pub fn early_frames() -> u64 {
    let vector = [9, 8, 7, 0];
    let checks = division::check_values(&vector, 1, 1);
    let right = [1, 3, 4].map(|slot| (slot, &checks[..]));
    let other = [1, 3, 4].map(|slot| (slot, &[1, 2][..]));
    let mut column = archive::open(4, 1, 1, 2, RUN, &[8]).column;
    column = handed(&column, 0x22, &right, 0);
    column = handed(&column, 0x22, &right, 15);
    column = handed(&column, 0x22, &other, 15);
    column = handed(&column, 0x33, &right, 14);
    column = handed(&column, 0x11, &[(1, &[9]), (3, &[7])], 0);
    column = closed(&column);
    same("V", &column.found.heard[..4], &vector, &column);
    column = handed(&column, 0x22, &other, 15);
    column = closed(&column);
    same("Y", &column.found.agreed[..4], &vector, &column);
    same(
        "nobody is off",
        &column.found.told_two[..4],
        &[0; 4],
        &column,
    );
    column = handed(&column, 0x22, &right, 14);
    column = closed(&column);
    let held = archive::result(&column);
    same("confidences", held.confidences, [0; 32], &column);
    same("round two", &held.told_two[..4], &[0; 4], &column);
    same(
        "round three",
        &held.told_three[..4],
        &[254, 0, 254, 254],
        &column,
    );
    6 * 3 + 2 + 6
}
