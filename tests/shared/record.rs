//! A column's record as bytes.

use crate::archive::{Column, Findings, Identity, Slot};
use core::mem::{offset_of, size_of};

/// The fields stand in two runs: two bytes between `own` and `slots` belong to nothing, and are neither read nor written here.
const FRONT: usize = offset_of!(Identity, own) + size_of::<[u8; 8]>();
const REST: usize = offset_of!(Column, slots);

pub const EMPTY_SLOT: Slot = Slot {
    taken: 0,
    bytes: [0; 164],
};

pub const EMPTY: Column = Column {
    who: Identity {
        n: 0,
        t: 0,
        w: 0,
        number: 0,
        run: 0,
        own: [0; 8],
    },
    slots: [EMPTY_SLOT; 32],
    early: [EMPTY_SLOT; 32],
    found: Findings {
        heard: [0; 256],
        agreed: [0; 256],
        values: [0; 256],
        confidences: [0; 32],
        told_two: [0; 32],
        told_three: [0; 32],
    },
    round: 0,
    refused: [0; 32],
};

// Within each of the two runs there is no gap between fields, and any bits are a record.

/// The bytes of the fields from here on to there, which must not reach over the gap.
pub fn bytes_at(column: &Column, from: usize, to: usize) -> &[u8] {
    assert!(from <= to && (to <= FRONT || from >= REST) && to <= size_of::<Column>());
    let first: *const u8 = (column as *const Column).cast();
    unsafe { core::slice::from_raw_parts(first.add(from), to - from) }
}

/// The same, to be written.
pub fn bytes_at_mut(column: &mut Column, from: usize, to: usize) -> &mut [u8] {
    assert!(from <= to && (to <= FRONT || from >= REST) && to <= size_of::<Column>());
    let first: *mut u8 = (column as *mut Column).cast();
    unsafe { core::slice::from_raw_parts_mut(first.add(from), to - from) }
}

/// Where two records first differ.
pub fn difference(a: &Column, b: &Column) -> Option<usize> {
    let runs = [(0, FRONT), (REST, size_of::<Column>())];
    let differing = runs
        .into_iter()
        .find(|&(from, to)| bytes_at(a, from, to) != bytes_at(b, from, to));
    differing.and_then(|(from, to)| {
        (from..to).find(|&at| bytes_at(a, at, at + 1) != bytes_at(b, at, at + 1))
    })
}

/// Every field of random bits.
pub fn fill(column: &mut Column, mut with: impl FnMut(&mut [u8])) {
    with(bytes_at_mut(column, 0, FRONT));
    with(bytes_at_mut(column, REST, size_of::<Column>()));
}
