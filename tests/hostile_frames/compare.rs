//! Each call beside the table of refusals: its answer, its record, the bytes lent to it.

use crate::archive::{self, Column, Findings, Identity, Outcome, Slot};
use crate::frames::{command_of, frame, frame_length};
use crate::linear;
use crate::record::{EMPTY_SLOT, bytes_at, difference};
use crate::refusals::{Call, Case, answer, count_refusal};
use std::fmt::Debug;
use std::mem::replace;

/// Ends the run where the library has something else than the model.
pub fn same<T: PartialEq + Debug>(what: &str, ours: T, model: T, column: &Column) {
    if ours != model {
        let Identity {
            n,
            t,
            w,
            number,
            run,
            own,
        } = column.who;
        let Column { round, refused, .. } = column;
        eprintln!("hostile_frames: {what}: the library has {ours:?}, the model {model:?}");
        eprintln!(
            "n {n}, t {t}, w {w}, number {number}, run {run}, round {round}, own {own:?}, refused {refused:?}"
        );
        std::process::exit(1);
    }
}

pub fn same_record(what: &str, ours: &Column, model: &Column) {
    if let Some(at) = difference(ours, model) {
        same(
            &format!("{what}: byte {at} of the record"),
            bytes_at(ours, at, at + 1),
            bytes_at(model, at, at + 1),
            model,
        );
    }
}

fn case_of<'a>(column: &'a Column, slot: u32, frame: &'a [u8], room: usize) -> Case<'a> {
    let Identity {
        n,
        t,
        w,
        number,
        run,
        ref own,
    } = column.who;
    let is_there = |slots: &[Slot]| (1..=32).contains(&slot) && slots[slot as usize - 1].taken != 0;
    Case {
        n,
        t,
        w,
        number,
        own,
        round: column.round,
        run,
        slot,
        frame,
        taken: is_there(&column.slots),
        early: is_there(&column.early),
        room,
    }
}

/// What the table answers to a call on a record; a call leaves out what it has not.
pub fn model(call: Call, column: &Column, slot: u32, frame: &[u8], room: usize) -> u32 {
    answer(call, &case_of(column, slot, frame, room))
}

/// Takes a frame. Nothing is copied or written out where all is well: this runs millions of times.
pub fn taken(column: &Column, slot: u32, lent: &[u8]) -> Outcome {
    let mut outcome = archive::take(column, slot, lent);
    let model = model(Call::Take, column, slot, lent, 0);
    if outcome.answer != model {
        let header = &lent[..lent.len().min(4)];
        let what = format!("{} bytes {header:?} in slot {slot}", lent.len());
        same(&what, outcome.answer, model, column);
    }
    let mut counts = column.refused;
    count_refusal(&mut counts, slot, model);
    same(
        "the counts of refused frames",
        &outcome.column.refused,
        &counts,
        column,
    );
    outcome.column.refused = column.refused;
    if model == 0 {
        same_but_slot(&outcome.column, column, slot, lent);
    } else {
        same_record("a refused frame", &outcome.column, column);
    }
    outcome.column.refused = counts;
    outcome
}

/// A frame was taken: its slot, of the round or of the one that follows, holds it in front of zeros, and all else is as before.
fn same_but_slot(after: &Column, before: &Column, slot: u32, lent: &[u8]) {
    let k = slot as usize - 1;
    let mut rest = *after;
    let Slot { taken, bytes } = if lent[0] == command_of(before.round) {
        replace(&mut rest.slots[k], before.slots[k])
    } else {
        replace(&mut rest.early[k], before.early[k])
    };
    same_record("a frame taken", &rest, before);
    same("the slot's mark", taken, 1, before);
    same("the slot's frame", &bytes[..lent.len()], lent, before);
    zeros("behind the slot's frame", &bytes[lent.len()..], before);
}

fn zeros(what: &str, bytes: &[u8], column: &Column) {
    same(what, bytes.iter().find(|byte| **byte != 0), None, column);
}

/// Sends into a buffer. Where no operand is given, any stands for right.
pub fn sent(column: &Column, room: usize, operand: Option<&[u8]>) {
    let before: Vec<u8> = (0..room).map(|k| (k * 37 + 11) as u8).collect();
    let mut buffer = before.clone();
    let ours = archive::send(column, &mut buffer);
    let model = model(Call::Send, column, 0, &[], room);
    same("sending", ours, model, column);
    let mut expected = before;
    if model == 0 {
        let command = command_of(column.round);
        let Identity {
            t, w, number, run, ..
        } = column.who;
        let size = frame_length(command, t, w).unwrap();
        let written = frame(
            command,
            number as u8,
            run,
            operand.unwrap_or(&buffer[4..size]),
        );
        expected[..size].copy_from_slice(&written);
    }
    same("the buffer", buffer, expected, column);
}

/// What the closing of a round tells of each sender, by repair of the vector that the round began with.
fn told(column: &Column, vector: &[u8; 256]) -> [u8; 32] {
    let Identity {
        n, t, w, number, ..
    } = column.who;
    let (vector, checks) = (&vector[..(n * w) as usize], (2 * t * w) as usize);
    let mut told = [0; 32];
    for k in (1..=n).filter(|k| *k != number).map(|k| k as usize - 1) {
        let Slot { taken, bytes } = &column.slots[k];
        if *taken == 0 {
            told[k] = 254;
            continue;
        }
        told[k] = match linear::repair(n, t, w, vector, &bytes[4..4 + checks], &mut [0; 256]) {
            (0, changed, _) => changed as u8,
            _ => 255,
        };
    }
    told
}

/// Closes: every slot has what came early then, and nothing is early any more; what the round tells stands in its array, the round's other
/// arrays may have other bytes in front of zeros, and all else but the round is as before.
pub fn closed(column: &Column) -> Column {
    let outcome = archive::close(column);
    let model = model(Call::Close, column, 0, &[], 0);
    same("closing", outcome.answer, model, column);
    if model != 0 {
        same_record("a refused closing", &outcome.column, column);
        return outcome.column;
    }
    let now = outcome.column.found;
    let Identity { n, w, .. } = column.who;
    let (size, count) = ((n * w) as usize, n as usize);
    let found = match column.round {
        1 => Findings {
            heard: now.heard,
            ..column.found
        },
        2 => Findings {
            agreed: now.agreed,
            told_two: told(column, &column.found.heard),
            ..column.found
        },
        _ => Findings {
            values: now.values,
            confidences: now.confidences,
            told_three: told(column, &column.found.agreed),
            ..column.found
        },
    };
    let expected = Column {
        slots: column.early,
        early: [EMPTY_SLOT; 32],
        found,
        round: column.round + 1,
        ..*column
    };
    same_record("closing", &outcome.column, &expected);
    match column.round {
        1 => zeros("behind V", &now.heard[size..], column),
        2 => zeros("behind Y", &now.agreed[size..], column),
        _ => {
            zeros("behind the values", &now.values[size..], column);
            zeros("behind the confidences", &now.confidences[count..], column);
        }
    }
    outcome.column
}

/// Asks for the result: the record's values, confidences and what its rounds told, in front of zeros, or zeros with a refusal.
pub fn asked(column: &Column) {
    let held = archive::result(column);
    let model = model(Call::Result, column, 0, &[], 0);
    same("the result", held.answer, model, column);
    let (mut values, mut confidences) = ([0; 256], [0; 32]);
    let (mut told_two, mut told_three) = ([0; 32], [0; 32]);
    if model == 0 {
        let Identity { n, w, .. } = column.who;
        let (size, count, found) = ((n * w) as usize, n as usize, &column.found);
        values[..size].copy_from_slice(&found.values[..size]);
        confidences[..count].copy_from_slice(&found.confidences[..count]);
        told_two[..count].copy_from_slice(&found.told_two[..count]);
        told_three[..count].copy_from_slice(&found.told_three[..count]);
    }
    same("values", held.values, values, column);
    same("confidences", held.confidences, confidences, column);
    same("what round two told", held.told_two, told_two, column);
    same("what round three told", held.told_three, told_three, column);
}
