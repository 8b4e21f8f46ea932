//! A column in words, for a message.

use crate::archive::{Column, Identity};

/// With height/confidence of each column.
pub fn shown(column: &Column, values: &[u8], confidences: &[u8]) -> String {
    let Identity {
        n,
        t,
        w,
        number,
        own,
        ..
    } = column.who;
    let round = column.round;
    let columns = values.chunks(4).zip(confidences).take(n as usize);
    let held: Vec<String> = columns
        .map(|(value, confidence)| {
            let height = i32::from_be_bytes(value.try_into().unwrap());
            format!("{height}/{confidence}")
        })
        .collect();
    let held = held.join(" ");
    format!("n {n}, t {t}, w {w}, number {number}, own {own:?}, round {round}, {held}")
}

/// With what its record holds.
pub fn shown_record(column: &Column) -> String {
    shown(column, &column.found.values, &column.found.confidences)
}
