//! What opening, taking and closing leave in a record, and what a result call answers, to the byte, against a model of the record: random
//! settings, and records made by hand of random bits, many of them with checks in their slots that repair something, and with counts of
//! refused frames at their top or one below it. Two bytes of a record belong to nothing and are left out. The first difference ends the
//! run.

#[path = "../rust/src/archive.rs"]
mod archive;
#[path = "../models/chance.rs"]
mod chance;
#[path = "../models/division.rs"]
mod division;
#[path = "../models/exchange.rs"]
mod exchange;
#[path = "../models/frames.rs"]
mod frames;
#[path = "../models/linear.rs"]
mod linear;
#[path = "../models/record.rs"]
mod model;
#[path = "shared/record.rs"]
mod record;
#[path = "../models/refusals.rs"]
mod refusals;

use archive::{Column, Findings, Identity, Slot};
use chance::Chance;
use frames::{command_of, frame, frame_length};
use model::Record;
use record::{EMPTY, bytes_at, difference, fill};

const OPENINGS: u32 = 20_000;
const FRAMES: u32 = 100_000;
const CLOSINGS: u32 = 12_000;
const RESULTS: u32 = 100_000;

/// The model's record as the library lays it out.
fn laid_out(record: &Record) -> Column {
    let slot = |slot: &model::Slot| Slot {
        taken: slot.taken,
        bytes: slot.bytes[..].try_into().unwrap(),
    };
    let slots = |slots: &[model::Slot]| -> [Slot; 32] {
        let slots: Vec<Slot> = slots.iter().map(slot).collect();
        slots.try_into().unwrap_or_else(|_| panic!("32 slots"))
    };
    Column {
        who: Identity {
            n: record.n,
            t: record.t,
            w: record.w,
            number: record.number,
            run: record.run,
            own: record.own[..].try_into().unwrap(),
        },
        slots: slots(&record.slots),
        early: slots(&record.early),
        found: Findings {
            heard: record.heard[..].try_into().unwrap(),
            agreed: record.agreed[..].try_into().unwrap(),
            values: record.values[..].try_into().unwrap(),
            confidences: record.confidences[..].try_into().unwrap(),
            told_two: record.told_two[..].try_into().unwrap(),
            told_three: record.told_three[..].try_into().unwrap(),
        },
        round: record.round,
        refused: record.refused[..].try_into().unwrap(),
    }
}

/// The library's record as the model has it.
fn read(column: &Column) -> Record {
    let slot = |slot: &Slot| model::Slot {
        taken: slot.taken,
        bytes: slot.bytes.to_vec(),
    };
    let Identity {
        n,
        t,
        w,
        number,
        run,
        own,
    } = column.who;
    Record {
        n,
        t,
        w,
        number,
        run,
        own: own.to_vec(),
        slots: column.slots.iter().map(slot).collect(),
        early: column.early.iter().map(slot).collect(),
        heard: column.found.heard.to_vec(),
        agreed: column.found.agreed.to_vec(),
        values: column.found.values.to_vec(),
        confidences: column.found.confidences.to_vec(),
        told_two: column.found.told_two.to_vec(),
        told_three: column.found.told_three.to_vec(),
        round: column.round,
        refused: column.refused.to_vec(),
    }
}

fn same(what: &str, ours: &archive::Outcome, answer: u32, model: &Record) {
    let Record {
        n,
        t,
        w,
        number,
        round,
        ..
    } = *model;
    let which = format!("{what}, n {n}, t {t}, w {w}, number {number}, round {round} after it");
    assert_eq!(ours.answer, answer, "the answer of {which}");
    let expected = laid_out(model);
    if let Some(at) = difference(&ours.column, &expected) {
        let (ours, model) = (&ours.column, &expected);
        panic!(
            "byte {at} of the record after {which}: the library has {:?}, the model {:?}",
            bytes_at(ours, at, at + 1),
            bytes_at(model, at, at + 1)
        );
    }
}

/// n, t and w that pass.
fn settings(chance: &mut Chance) -> (u32, u32, u32) {
    let n = 1 + chance.below(32) as u32;
    let most = u64::from(n - 1) / 3;
    let t = if chance.one_in(3) {
        most
    } else {
        chance.below(most + 1)
    };
    (n, t as u32, 1 + chance.below(8) as u32)
}

fn openings(chance: &mut Chance) {
    for _ in 0..OPENINGS {
        let (mut n, t, w) = settings(chance);
        let numbers = n + u32::from(chance.one_in(8));
        let number = 1 + chance.below(numbers.into()) as u32;
        if chance.one_in(16) {
            n = chance.below(40) as u32;
        }
        let length = if chance.one_in(8) {
            chance.below(10)
        } else {
            w.into()
        };
        let mut own = vec![0; length as usize];
        if !chance.one_in(16) {
            chance.fill(&mut own);
        }
        let run = chance.word() as u16;
        let (answer, model) = Record::open(n, t, w, number, run, &own);
        same(
            "opening",
            &archive::open(n, t, w, number, run, &own),
            answer,
            &model,
        );
    }
}

/// A record of random bits whose settings, number, own value and round pass. A third of its counts are at their top or one below.
fn made_by_hand(chance: &mut Chance, rounds: u64) -> Column {
    let mut column = EMPTY;
    fill(&mut column, |bytes| chance.fill(bytes));
    let who = &mut column.who;
    (who.n, who.t, who.w) = settings(chance);
    who.number = 1 + chance.below(who.n.into()) as u32;
    who.own[0] |= 1;
    column.round = 1 + chance.below(rounds) as u32;
    for slot in column.slots.iter_mut().chain(&mut column.early) {
        slot.taken *= u8::from(!chance.one_in(3));
    }
    for count in &mut column.refused {
        if chance.one_in(3) {
            *count = chance.pick(&[u32::MAX - 1, u32::MAX]);
        }
    }
    column
}

/// What frames came to: how many were taken, how many of these early; how many were refused and counted, and how many refused whose count
/// stayed at its top.
#[derive(Default)]
struct Frames {
    taken: u32,
    early: u32,
    counted: u32,
    at_top: u32,
}

/// A slot and a frame for it: of the round, of the one that follows, or of any; at times with another bit in the header, or cut within it.
fn drawn_frame(chance: &mut Chance, column: &Column) -> (u32, Vec<u8>) {
    let Identity { n, t, w, run, .. } = column.who;
    let slot = 1 + chance.below(u64::from(n) + 1) as u32;
    let any = 1 + chance.below(3) as u32;
    let command = command_of(chance.pick(&[column.round, column.round, column.round + 1, any]));
    let size = frame_length(command, t, w).unwrap_or(4);
    let mut operand = vec![0; size - 4 + usize::from(chance.one_in(16))];
    chance.fill(&mut operand);
    let mut drawn = frame(command, slot as u8, run, &operand);
    let at = chance.below(32) as usize;
    match at {
        0..4 => drawn[at] ^= 1 << chance.below(8),
        4..8 => drawn.truncate(at - 4),
        _ => {}
    }
    (slot, drawn)
}

fn frames(chance: &mut Chance) -> Frames {
    let mut frames = Frames::default();
    for _ in 0..FRAMES {
        let column = made_by_hand(chance, 4);
        let (slot, lent) = drawn_frame(chance, &column);
        let mut model = read(&column);
        let answer = model.take(slot, &lent);
        same(
            "taking",
            &archive::take(&column, slot, &lent),
            answer,
            &model,
        );
        frames.taken += u32::from(answer == 0);
        frames.early += u32::from(answer == 0 && lent[0] != command_of(column.round));
        if answer > 8 {
            let was_at_top = column.refused[slot as usize - 1] == u32::MAX;
            frames.counted += u32::from(!was_at_top);
            frames.at_top += u32::from(was_at_top);
        }
    }
    frames
}

/// Checks of vectors near the record's own in some of the slots, which random bits alone would not make. Those that came early would count
/// as well, were they taken for the round's.
fn put_checks(chance: &mut Chance, column: &mut Column) {
    let Identity { n, t, w, .. } = column.who;
    let (n, t, w) = (n as usize, t as usize, w as usize);
    let found = &mut column.found;
    let own = if column.round == 2 {
        &mut found.heard
    } else {
        &mut found.agreed
    };
    // Few values, so that they meet and tie.
    if chance.one_in(2) {
        for byte in &mut own[..n * w] {
            *byte %= 2;
        }
    }
    let mut shared = own[..n * w].to_vec();
    // Up to t places of one plane, or of each, which may be the same places and may be more than t.
    let plane = chance.below(w as u64) as usize;
    let planes = chance.pick(&[(plane, plane + 1), (0, w)]);
    for plane in planes.0..planes.1 {
        for _ in 0..chance.below(t as u64 + 1) {
            let k = chance.below(n as u64) as usize;
            shared[k * w + plane] ^= chance.below(256) as u8;
        }
    }
    let (agreeing, shared) = (
        division::check_values(&own[..n * w], t, w),
        division::check_values(&shared, t, w),
    );
    let random = 1 + chance.below(8);
    for slot in column.slots[..n].iter_mut().chain(&mut column.early[..n]) {
        if !chance.one_in(random + 1) {
            let checks = if chance.one_in(2) { &agreeing } else { &shared };
            slot.bytes[4..4 + checks.len()].copy_from_slice(checks);
            // A check may be the place that is wrong.
            if t > 0 && chance.one_in(4) {
                slot.bytes[4 + chance.below(checks.len() as u64) as usize] ^= 1;
            }
        }
    }
}

/// What closings came to: how many found something, and of the senders how many were told as missing, as none, and by numbers above 0 and
/// above t.
#[derive(Default)]
struct Closings {
    found: u32,
    missing: u32,
    none: u32,
    changed: u32,
    above_t: u32,
}

fn closings(chance: &mut Chance) -> Closings {
    let mut closings = Closings::default();
    for _ in 0..CLOSINGS {
        let mut column = made_by_hand(chance, 3);
        if column.round > 1 {
            put_checks(chance, &mut column);
        }
        let mut model = read(&column);
        let answer = model.close();
        same("closing", &archive::close(&column), answer, &model);
        let (written, told) = match column.round {
            1 => (&model.heard, &[][..]),
            2 => (&model.agreed, &model.told_two[..]),
            _ => (&model.values, &model.told_three[..]),
        };
        closings.found += u32::from(written.iter().any(|byte| *byte != 0));
        for told in told {
            match *told {
                254 => closings.missing += 1,
                255 => closings.none += 1,
                places => {
                    closings.changed += u32::from(places > 0);
                    closings.above_t += u32::from(u32::from(places) > column.who.t);
                }
            }
        }
    }
    closings
}

/// Behind what a record made by hand has of n columns stand other bytes; behind the same in its result, zeros.
fn results(chance: &mut Chance) {
    for _ in 0..RESULTS {
        let mut column = made_by_hand(chance, 1);
        column.round = if chance.one_in(8) { 3 } else { 4 };
        let held = archive::result(&column);
        let found = [
            &held.values[..],
            &held.confidences,
            &held.told_two,
            &held.told_three,
        ];
        let Identity { n, t, w, .. } = column.who;
        assert_eq!(
            (held.answer, found.map(<[u8]>::to_vec)),
            read(&column).result(),
            "a result, n {n}, t {t}, w {w}"
        );
    }
}

fn main() {
    let mut chance = Chance::new(5);
    openings(&mut chance);
    let Frames {
        taken,
        early,
        counted,
        at_top,
    } = frames(&mut chance);
    let Closings {
        found,
        missing,
        none,
        changed,
        above_t,
    } = closings(&mut chance);
    results(&mut chance);
    println!(
        "records: to the byte as the model has them: {OPENINGS} openings, {FRAMES} frames, {taken} of them taken, {early} of these early, \
         {counted} refused and counted, {at_top} refused with a count that stays at its top, {CLOSINGS} closings, {found} of them with \
         something found, {RESULTS} results; closings told {missing} senders as missing, {none} as none, {changed} by numbers above 0, \
         {above_t} of these above t"
    );
}
