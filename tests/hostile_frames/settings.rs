//! Settings in and out of range: openings, and records that have them.

use crate::RUN;
use crate::archive::{self, Column, Identity};
use crate::compare::{asked, closed, model, same, same_record, sent, taken};
use crate::record::EMPTY;
use crate::refusals::{Call, Case, answer};

pub const NUMBERS: [u32; 13] = [0, 1, 2, 3, 4, 7, 8, 9, 31, 32, 33, 256, u32::MAX];
/// Among them are those whose threefold wraps in 32 bits to something small.
#[rustfmt::skip]
pub const BAD: [u32; 10] = [0, 1, 2, 10, 11, 0x5555_5554, 0x5555_5555, 0x5555_5556, 0xaaaa_aaab, u32::MAX];
pub const SIZES: [u32; 6] = [0, 1, 4, 8, 9, u32::MAX];

pub fn all_settings() -> u64 {
    let mut compared = 0;
    for n in NUMBERS {
        for t in BAD {
            for w in SIZES {
                for number in NUMBERS {
                    compared += openings(n, t, w, number) + records(n, t, w, number);
                }
            }
        }
    }
    compared
}

/// Own values of every length to 10, blank and not.
fn openings(n: u32, t: u32, w: u32, number: u32) -> u64 {
    for length in 0..=10 {
        let mut own = vec![0; length];
        opened(n, t, w, number, &own);
        if let Some(last) = own.last_mut() {
            *last = 1;
        }
        opened(n, t, w, number, &own);
    }
    22
}

fn opened(n: u32, t: u32, w: u32, number: u32, own: &[u8]) {
    let (round, run, slot, taken, early, room) = (0, RUN, 0, false, false, 0);
    let case = Case {
        n,
        t,
        w,
        number,
        own,
        round,
        run,
        slot,
        frame: &[],
        taken,
        early,
        room,
    };
    let model = answer(Call::Open, &case);
    let asked = Column {
        who: Identity {
            n,
            t,
            w,
            number,
            run,
            own: [0; 8],
        },
        ..EMPTY
    };
    let mut expected = EMPTY;
    if model == 0 {
        expected = Column { round: 1, ..asked };
        expected.who.own[..own.len()].copy_from_slice(own);
    }
    let outcome = archive::open(n, t, w, number, run, own);
    same("opening", outcome.answer, model, &asked);
    same_record("opening", &outcome.column, &expected);
}

/// A record with these settings, with a blank and other own values, in the rounds and beside them.
fn records(n: u32, t: u32, w: u32, number: u32) -> u64 {
    let mut compared = 0;
    for own in [[0; 8], [0, 0, 0, 0, 0, 0, 0, 1], [1; 8]] {
        for round in [0, 1, 2, 3, 4, 5, u32::MAX] {
            let column = Column {
                who: Identity {
                    n,
                    t,
                    w,
                    number,
                    run: RUN,
                    own,
                },
                round,
                refused: [7; 32],
                ..EMPTY
            };
            for room in [0, 3, 4, 5, 164, 200] {
                sent(&column, room, None);
            }
            taken(&column, 1, &[0x11, 1, 0x12, 0x34, 1]);
            asked(&column);
            compared += 8;
            // Of the closings that are not refused, which take the time, one number's are enough.
            if number == 1 || model(Call::Close, &column, 0, &[], 0) != 0 {
                closed(&column);
                compared += 1;
            }
        }
    }
    compared
}
