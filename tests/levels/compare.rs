//! The library's level beside the model's.

use crate::archive::{self, Column, Identity};
use crate::model::{Finished, Levelled};
use crate::shown::shown;

/// The library's level, which is the model's of these values and confidences.
pub fn compared(part: &str, column: &Column, values: &[u8], confidences: &[u8]) -> Levelled {
    let Identity {
        n,
        t,
        w,
        number,
        ref own,
        ..
    } = column.who;
    let finished = Finished {
        n,
        t,
        w,
        number,
        own,
        round: column.round,
        values,
        confidences,
    };
    let level = archive::level(column);
    let (answer, level, correction) = (level.answer, level.level, level.correction);
    let ours = Levelled {
        answer,
        level,
        correction,
    };
    let model = finished.level();
    if ours != model {
        let case = shown(column, values, confidences);
        panic!("{part}: the library says {ours:?}, the model {model:?}, of {case}");
    }
    ours
}

pub fn compared_record(part: &str, column: &Column) -> Levelled {
    compared(
        part,
        column,
        &column.found.values,
        &column.found.confidences,
    )
}
