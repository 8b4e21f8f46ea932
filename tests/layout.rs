//! Sizes and offsets of every struct that crosses the edge, in Rust: against the numbers, and against what the compiled calls read and write.

#[path = "../rust/src/archive.rs"]
mod archive;
#[path = "shared/record.rs"]
mod record;

use archive::{Column, Findings, Holdings, Identity, Level, Outcome, Repaired, Slot};
use core::mem::{align_of, offset_of, size_of};
use record::{bytes_at, bytes_at_mut};

// `own` ends at 26: the two bytes before the slots belong to nothing.
const _: () = {
    assert!(size_of::<Identity>() == 28 && align_of::<Identity>() == 4);
    assert!(offset_of!(Identity, n) == 0 && offset_of!(Identity, t) == 4);
    assert!(offset_of!(Identity, w) == 8 && offset_of!(Identity, number) == 12);
    assert!(offset_of!(Identity, run) == 16 && offset_of!(Identity, own) == 18);
    assert!(size_of::<Slot>() == 165 && align_of::<Slot>() == 1);
    assert!(offset_of!(Slot, taken) == 0 && offset_of!(Slot, bytes) == 1);
    assert!(size_of::<Findings>() == 864 && align_of::<Findings>() == 1);
    assert!(offset_of!(Findings, heard) == 0 && offset_of!(Findings, agreed) == 256);
    assert!(offset_of!(Findings, values) == 512 && offset_of!(Findings, confidences) == 768);
    assert!(offset_of!(Findings, told_two) == 800 && offset_of!(Findings, told_three) == 832);
    assert!(size_of::<Column>() == 11584 && align_of::<Column>() == 4);
    assert!(offset_of!(Column, who) == 0 && offset_of!(Column, slots) == 28);
    assert!(offset_of!(Column, early) == 5308 && offset_of!(Column, found) == 10588);
    assert!(offset_of!(Column, round) == 11452 && offset_of!(Column, refused) == 11456);
    assert!(
        size_of::<Outcome>() == 11588
            && offset_of!(Outcome, answer) == 0
            && offset_of!(Outcome, column) == 4
    );
    assert!(size_of::<Holdings>() == 356 && offset_of!(Holdings, answer) == 0);
    assert!(offset_of!(Holdings, values) == 4 && offset_of!(Holdings, confidences) == 260);
    assert!(offset_of!(Holdings, told_two) == 292 && offset_of!(Holdings, told_three) == 324);
    assert!(size_of::<Level>() == 24 && offset_of!(Level, answer) == 0);
    assert!(offset_of!(Level, level) == 8 && offset_of!(Level, correction) == 16);
    assert!(size_of::<Repaired>() == 16 && align_of::<Repaired>() == 4);
    assert!(offset_of!(Repaired, answer) == 0 && offset_of!(Repaired, changed) == 4);
    assert!(offset_of!(Repaired, tried) == 8);
    assert!(archive::TOLD_MISSING == 254 && archive::TOLD_NONE == 255);
};

fn number_at(column: &Column, at: usize) -> u32 {
    u32::from_ne_bytes(bytes_at(column, at, at + 4).try_into().unwrap())
}

/// A frame that is refused in any slot but the own raises that slot's count, where the numbers above say, and no other.
fn counted() {
    let mut column = archive::open(32, 0, 1, 5, 0x1234, &[61]).column;
    // One more goes over into the second byte.
    let mut expected: [u32; 32] = std::array::from_fn(|k| 256 * k as u32 + 255);
    let bytes = |counts: [u32; 32]| counts.map(u32::to_ne_bytes).concat();
    bytes_at_mut(&mut column, 11456, 11584).copy_from_slice(&bytes(expected));
    for slot in 1..=32 {
        let outcome = archive::take(&column, slot, &[61]);
        assert_eq!(outcome.answer, if slot == 5 { 8 } else { 9 });
        column = outcome.column;
        expected[slot as usize - 1] += u32::from(slot != 5);
        assert_eq!(bytes_at(&column, 11456, 11584), bytes(expected));
    }
}

/// Where column 4's slots stand, of the round and of the one that follows, and its checks.
const SLOT: usize = 28 + 3 * 165;
const EARLY: usize = 5308 + 3 * 165;
const CHECKS: [u8; 16] = [0x22, 4, 0x12, 0x34, 1, 2, 3, 4, 5, 6, 7, 8, 9, 10, 11, 12];

/// Opening, taking, refusing and closing write each field where the numbers above say.
fn written() {
    let opened = archive::open(7, 2, 3, 5, 0x1234, &[61, 62, 63]);
    let column = opened.column;
    assert_eq!(opened.answer, 0);
    assert_eq!(
        [0, 4, 8, 12, 11452].map(|at| number_at(&column, at)),
        [7, 2, 3, 5, 1]
    );
    assert_eq!(bytes_at(&column, 16, 18), 0x1234u16.to_ne_bytes());
    assert_eq!(bytes_at(&column, 18, 26), [61, 62, 63, 0, 0, 0, 0, 0]);
    assert_eq!(bytes_at(&column, 11456, 11584), [0; 128]);
    let frame = [0x11, 4, 0x12, 0x34, 71, 72, 73];
    let taken = archive::take(&column, 4, &frame).column;
    assert_eq!(bytes_at(&taken, SLOT, SLOT + 1), [1]);
    assert_eq!(bytes_at(&taken, SLOT + 1, SLOT + 8), frame);
    let repeated = archive::take(&taken, 4, &frame).column;
    assert_eq!(number_at(&repeated, 11456 + 3 * 4), 1);
    let ahead = archive::take(&repeated, 4, &CHECKS).column;
    assert_eq!(bytes_at(&ahead, EARLY, EARLY + 1), [1]);
    assert_eq!(bytes_at(&ahead, EARLY + 1, EARLY + 17), CHECKS);
    assert_eq!(bytes_at(&ahead, SLOT + 1, SLOT + 8), frame);
    closed(&ahead);
}

/// In round two only column 4 is heard, and its checks fit nothing; in round three nobody is. Its refused frame stays counted.
fn closed(ahead: &Column) {
    let heard = archive::close(ahead).column;
    assert_eq!(number_at(&heard, 11452), 2);
    assert_eq!(
        bytes_at(&heard, 10588 + 9, 10588 + 15),
        [71, 72, 73, 61, 62, 63]
    );
    assert_eq!(bytes_at(&heard, SLOT, SLOT + 1), [1]);
    assert_eq!(bytes_at(&heard, SLOT + 1, SLOT + 17), CHECKS);
    assert_eq!(bytes_at(&heard, EARLY, EARLY + 1), [0]);
    assert_eq!(bytes_at(&heard, 11388, 11452), [0; 64]);
    let agreed = archive::close(&heard).column;
    let two = [254, 254, 254, 255, 0, 254, 254];
    assert_eq!(bytes_at(&agreed, 11388, 11395), two);
    assert_eq!(bytes_at(&agreed, 11395, 11452), [0; 57]);
    let ended = archive::close(&agreed).column;
    let three = [254, 254, 254, 254, 0, 254, 254];
    assert_eq!(bytes_at(&ended, 11388, 11395), two);
    assert_eq!(bytes_at(&ended, 11395, 11420), [0; 25]);
    assert_eq!(bytes_at(&ended, 11420, 11427), three);
    assert_eq!(bytes_at(&ended, 11427, 11452), [0; 25]);
    assert_eq!(number_at(&ended, 11456 + 3 * 4), 1);
}

/// Sending and asking read each field where the numbers above say.
fn read() {
    let mut column = archive::open(7, 2, 3, 5, 0x1234, &[61, 62, 63]).column;
    let mut frame = [0; 7];
    assert_eq!(archive::send(&column, &mut frame), 0);
    assert_eq!(frame, [0x11, 5, 0x12, 0x34, 61, 62, 63]);
    column.round = 4;
    for (k, byte) in bytes_at_mut(&mut column, 11100, 11452)
        .iter_mut()
        .enumerate()
    {
        *byte = (k % 251) as u8 ^ 0x5a; // no two fields alike
    }
    let held = archive::result(&column);
    assert_eq!(held.answer, 0);
    assert_eq!(held.values[..21], *bytes_at(&column, 11100, 11121));
    assert_eq!(held.confidences[..7], *bytes_at(&column, 11356, 11363));
    assert_eq!(held.told_two[..7], *bytes_at(&column, 11388, 11395));
    assert_eq!(held.told_three[..7], *bytes_at(&column, 11420, 11427));
    assert_eq!([&held.told_two[7..], &held.told_three[7..]], [&[0; 25]; 2]);
}

/// A column alone ends with its own value: Y is written in round two, values and confidences in round three.
fn ended() {
    let mut column = archive::open(1, 0, 2, 1, 9, &[8, 7]).column;
    for _ in 0..3 {
        column = archive::close(&column).column;
    }
    for at in [10588, 10844, 11100] {
        assert_eq!(bytes_at(&column, at, at + 2), [8, 7]);
    }
    assert_eq!(bytes_at(&column, 11356, 11357), [2]);
}

/// Two columns at -5 and -2 tenths: the level is -4, and column 1 goes up by one.
fn levelled() {
    let heights = [255, 255, 255, 251, 255, 255, 255, 254];
    let mut column = archive::open(2, 0, 4, 1, 9, &heights[..4]).column;
    let refused = archive::level(&column);
    assert_eq!(
        (refused.answer, refused.level, refused.correction),
        (17, 0, 0)
    );
    column.round = 4;
    column.found.values[..8].copy_from_slice(&heights);
    column.found.confidences[..2].fill(1);
    let level = archive::level(&column);
    assert_eq!((level.answer, level.level, level.correction), (0, -4, 1));
}

/// Repair hands back its answer, its count and a number for each plane side by side: four places changed, in six of seven planes; none near
/// in the one that was right; and a refusal.
fn repaired() {
    let near = [22, 0, 38, 39, 39, 22, 0, 61, 136, 78, 78, 79, 61, 136];
    let far = [22, 0, 38, 22, 39, 22, 0, 61, 136, 78, 77, 79, 61, 136];
    let vector = [[241; 7], [86; 7], [35; 7], [35; 7]].concat();
    for (checks, answered) in [
        (&near[..], (0, 4, [2, 3, 5, 0, 6, 2, 3, 0])),
        (&far[..], (256, 0, [2, 3, 5, 6, 6, 2, 3, 0])),
        (&far[1..], (18, 0, [0; 8])),
    ] {
        let Repaired {
            answer,
            changed,
            tried,
        } = archive::repair(4, 1, 7, &vector, checks, &mut [0; 28]);
        assert_eq!((answer, changed, tried), answered);
    }
}

fn main() {
    counted();
    written();
    read();
    ended();
    levelled();
    repaired();
    println!("layout: the structs stand in Rust as the compiled calls read and write them");
}
