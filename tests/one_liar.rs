//! Four columns, one of which lies: every pair of check bytes that it can send in rounds two and three, to every reader. Repair is compared with
//! a list of all vectors within one place, by the definition, and what is told of each sender with how far off its vector is in that list.
//! The three promises are asserted over all that the readers may end with, and that a good sender is never more than one place off.

#[path = "../rust/src/archive.rs"]
mod archive;
#[path = "../models/division.rs"]
mod division;
#[path = "../models/exchange.rs"]
mod exchange;
#[path = "../models/frames.rs"]
mod frames;
#[path = "../models/linear.rs"]
mod linear;
#[path = "../models/refusals.rs"]
mod refusals;

use archive::Column;
use exchange::agree;
use frames::{command_of, frame};
use std::collections::BTreeMap;

const LIAR: u8 = 4;
const RUN: u16 = 513;
const HEIGHTS: [u8; 3] = [241, 86, 35];
/// What the liar tells the readers in round one; 0 is a frame that never comes.
const TOLD: [[u8; 3]; 3] = [[35, 35, 40], [35, 35, 0], [1, 2, 3]];

type Vector = [u8; 4];
/// Of each column its value and confidence.
type Beliefs = [(u8, u8); 4];

/// A row of a table, and what is told of its sender: how many places were changed, or a mark.
#[derive(Clone, Copy, Debug, PartialEq)]
struct Row {
    vector: Vector,
    told: u8,
}

const MISSING: Row = Row {
    vector: [0; 4],
    told: 254,
};
const NONE: Row = Row {
    vector: [0; 4],
    told: 255,
};

/// For every pair of check bytes, the row that it repairs this vector to: all that differ in at most one of six places.
fn repairs(vector: Vector) -> Vec<Row> {
    let mut repaired = vec![NONE; 65536];
    let mut put = |checks: [u8; 2], near: Vector, told: u8| {
        let place = &mut repaired[u16::from_be_bytes(checks) as usize];
        assert!(
            *place == NONE,
            "two vectors are near: {place:?} and {near:?}"
        );
        *place = Row { vector: near, told };
    };
    let own: [u8; 2] = division::check_values(&vector, 1, 1).try_into().unwrap();
    put(own, vector, 0);
    for change in 1..=255 {
        put([own[0] ^ change, own[1]], vector, 1);
        put([own[0], own[1] ^ change], vector, 1);
        for k in 0..4 {
            let mut near = vector;
            near[k] ^= change;
            let checks = division::check_values(&near, 1, 1);
            put(checks.try_into().unwrap(), near, 1);
        }
    }
    repaired
}

/// What a table's rows tell, as a record has it.
fn told_by(table: &[Row; 4]) -> [u8; 32] {
    let mut told = [0; 32];
    told[..4].copy_from_slice(&table.map(|row| row.told));
    told
}

fn times(column: &[u8], value: u8) -> usize {
    column.iter().filter(|other| **other == value).count()
}

/// Y at k: found three times of four, or blank.
fn agreed(table: &[Row; 4]) -> Vector {
    [0, 1, 2, 3].map(|k| {
        let column = table.map(|row| row.vector[k]);
        column
            .into_iter()
            .find(|value| times(&column, *value) >= 3)
            .unwrap_or(0)
    })
}

/// The most often found value at k, blank left out, the smallest on a tie: 2 where it is found three times, 1 where twice.
fn held(table: &[Row; 4]) -> Beliefs {
    [0, 1, 2, 3].map(|k| {
        let column = table.map(|row| row.vector[k]);
        let values = column.into_iter().filter(|value| *value != 0);
        let most = values.max_by_key(|value| (times(&column, *value), 255 - value));
        match most.map_or(0, |most| times(&column, most)) {
            3.. => (most.unwrap(), 2),
            2 => (most.unwrap(), 1),
            _ => (0, 0),
        }
    })
}

fn take(column: &Column, slot: u32, bytes: &[u8]) -> Column {
    let outcome = archive::take(column, slot, bytes);
    assert_eq!(outcome.answer, 0, "{bytes:?} in slot {slot}");
    outcome.column
}

fn close(column: &Column) -> Column {
    let outcome = archive::close(column);
    assert_eq!(outcome.answer, 0, "closing");
    outcome.column
}

fn vector(bytes: &[u8; 256]) -> Vector {
    bytes[..4].try_into().unwrap()
}

/// The good columns after round one.
fn after_values(told: [u8; 3]) -> [Column; 3] {
    [0, 1, 2].map(|reader| {
        let own = &HEIGHTS[reader..reader + 1];
        let mut column = archive::open(4, 1, 1, reader as u32 + 1, RUN, own).column;
        for sender in (0..3).filter(|sender| *sender != reader) {
            let told = frame(0x11, sender as u8 + 1, RUN, &[HEIGHTS[sender]]);
            column = take(&column, sender as u32 + 1, &told);
        }
        if told[reader] != 0 {
            column = take(
                &column,
                LIAR.into(),
                &frame(0x11, LIAR, RUN, &[told[reader]]),
            );
        }
        close(&column)
    })
}

/// A reader with the frames of the good columns taken, and its table without the liar's row.
fn with_good_frames(
    columns: &[Column; 3],
    reader: usize,
    own: Vector,
    repaired: &[Row],
) -> (Column, [Row; 4]) {
    let mut column = columns[reader];
    let mut table = [MISSING; 4];
    table[reader] = Row {
        vector: own,
        told: 0,
    };
    for sender in (0..3).filter(|sender| *sender != reader) {
        let mut sent = [0; 6];
        assert_eq!(archive::send(&columns[sender], &mut sent), 0, "sending");
        column = take(&column, sender as u32 + 1, &sent);
        table[sender] = repaired[usize::from(sent[4]) << 8 | usize::from(sent[5])];
        assert!(table[sender].told <= 1, "told of a good column");
    }
    (column, table)
}

/// Every record that a reader may end the round with, for each pair of the liar's check bytes or none, each handed to the comparison.
fn every_closing(
    columns: &[Column; 3],
    reader: usize,
    own: Vector,
    mut compare: impl FnMut(&Column, &[Row; 4]),
) -> u64 {
    let repaired = repairs(own);
    let (column, mut table) = with_good_frames(columns, reader, own, &repaired);
    compare(&close(&column), &table);
    let command = command_of(column.round);
    for pair in 0..=65535u16 {
        table[3] = repaired[usize::from(pair)];
        let lie = frame(command, LIAR, RUN, &pair.to_be_bytes());
        compare(&close(&take(&column, LIAR.into(), &lie)), &table);
    }
    65537
}

/// The readers' records after round two, one for each Y that the liar can bring about.
fn every_agreed(columns: &[Column; 3], reader: usize) -> (u64, Vec<Column>) {
    let mut ends = BTreeMap::new();
    let compared = every_closing(
        columns,
        reader,
        vector(&columns[reader].found.heard),
        |column, table| {
            assert_eq!(
                vector(&column.found.agreed),
                agreed(table),
                "Y of column {}",
                reader + 1
            );
            assert_eq!(
                (column.found.told_two, column.found.told_three),
                (told_by(table), [0; 32]),
                "what round two told column {}",
                reader + 1
            );
            ends.entry(agreed(table)).or_insert(*column);
        },
    );
    (compared, ends.into_values().collect())
}

fn every_held(columns: &[Column; 3], reader: usize) -> (u64, Vec<Beliefs>) {
    let mut ends = BTreeMap::new();
    let compared = every_closing(
        columns,
        reader,
        vector(&columns[reader].found.agreed),
        |column, table| {
            let beliefs = held(table);
            let result = archive::result(column);
            let ours = [0, 1, 2, 3].map(|k| (result.values[k], result.confidences[k]));
            assert_eq!(
                (result.answer, &ours),
                (0, &beliefs),
                "what column {} believes",
                reader + 1
            );
            assert_eq!(
                (result.told_two, result.told_three),
                (columns[reader].found.told_two, told_by(table)),
                "what rounds two and three told column {}",
                reader + 1
            );
            ends.insert(ours, ours);
        },
    );
    (compared, ends.into_values().collect())
}

/// The promises, between all that two readers may end with; answers how many pairs were compared.
fn promises(ends: &[Vec<Beliefs>; 3]) -> u64 {
    let mut compared = 0;
    for mine in ends.iter().flatten() {
        for (k, height) in HEIGHTS.iter().enumerate() {
            assert_eq!(mine[k], (*height, 2), "a good column's value");
        }
    }
    for (mine, theirs) in [(0, 1), (0, 2), (1, 2)] {
        for mine in &ends[mine] {
            for theirs in &ends[theirs] {
                assert!(
                    (0..4).all(|k| agree(&mine[k], &theirs[k])),
                    "{mine:?} and {theirs:?}"
                );
                compared += 1;
            }
        }
    }
    compared
}

/// The readers side by side.
fn by_every_reader<T: Send>(work: impl Fn(usize) -> T + Sync) -> [T; 3] {
    std::thread::scope(|scope| {
        let work = &work;
        let threads = [0, 1, 2].map(|reader| scope.spawn(move || work(reader)));
        threads.map(|thread| thread.join().unwrap())
    })
}

fn main() {
    let (mut closings, mut groups, mut pairs) = (0, 0, 0);
    for told in TOLD {
        let heard = after_values(told);
        let agreed = by_every_reader(|reader| every_agreed(&heard, reader));
        closings += agreed.iter().map(|(compared, _)| compared).sum::<u64>();
        for first in &agreed[0].1 {
            for second in &agreed[1].1 {
                for third in &agreed[2].1 {
                    let columns = [*first, *second, *third];
                    let held = by_every_reader(|reader| every_held(&columns, reader));
                    closings += held.iter().map(|(compared, _)| compared).sum::<u64>();
                    pairs += promises(&held.map(|(_, ends)| ends));
                    groups += 1;
                }
            }
        }
    }
    println!(
        "one_liar: {closings} closings by the definition; the promises hold in {groups} groups for {pairs} pairs of ends"
    );
}
