//! Records of random bits, with every refusal and the refusals in their order.

use crate::archive::Column;
use crate::chance::Chance;
use crate::compare::compared_record;
use crate::held::put_confidences;
use crate::record::{EMPTY, fill};

/// The lines that concern a level, in their order.
const LINES: [u32; 8] = [1, 2, 3, 4, 6, 17, 21, 22];

/// Some of the lines, or one, or none.
fn some_lines(chance: &mut Chance) -> Vec<u32> {
    if chance.one_in(2) {
        let one = chance.below(LINES.len() as u64 + 1) as usize;
        return LINES.get(one).into_iter().copied().collect();
    }
    LINES.into_iter().filter(|_| chance.one_in(3)).collect()
}

/// Settings to which these lines apply, and none of the others but by need: w = 9 is no 4 either.
fn faulty_settings(chance: &mut Chance, faults: &[u32]) -> (u32, u32, u32) {
    let any = chance.word() as u32;
    let n = if faults.contains(&1) {
        chance.pick(&[0, 33, u32::MAX, any.max(33)])
    } else {
        1 + chance.below(32) as u32
    };
    let most = (n.clamp(1, 32) - 1) / 3;
    let t = if faults.contains(&2) {
        // In 32 bits 3t+1 of the last two would be 0 and 3.
        chance.pick(&[most + 1, any.max(most + 1), 0x5555_5555, 0x5555_5556])
    } else {
        chance.below(u64::from(most) + 1) as u32
    };
    let w = if faults.contains(&3) {
        chance.pick(&[0, 9, u32::MAX, any.max(9)])
    } else if faults.contains(&21) {
        chance.pick(&[1, 2, 3, 5, 6, 7, 8])
    } else {
        4
    };
    (n, t, w)
}

/// An own value that is blank or not: only its w bytes say so, and each of them.
fn put_own(chance: &mut Chance, own: &mut [u8; 8], w: u32, blank: bool) {
    let w = w.clamp(1, 8) as usize;
    if blank || chance.one_in(2) {
        own[..w].fill(0);
    }
    if !blank {
        own[chance.below(w as u64) as usize] |= 1 << chance.below(8);
    }
}

/// A record of random bits to which these lines apply.
fn faulty_record(chance: &mut Chance, faults: &[u32]) -> Column {
    let mut column = EMPTY;
    fill(&mut column, |bytes| chance.fill(bytes));
    let who = &mut column.who;
    (who.n, who.t, who.w) = faulty_settings(chance, faults);
    who.number = if faults.contains(&4) {
        chance.pick(&[0, who.n.wrapping_add(1)])
    } else {
        1 + chance.below(who.n.max(1).into()) as u32
    };
    put_own(chance, &mut who.own, who.w, faults.contains(&6));
    let n = who.n.clamp(1, 32) as usize;
    let t = (who.t as usize).min(n - 1);
    let blank = if faults.contains(&22) {
        t + 1 + chance.below((n - t) as u64) as usize
    } else {
        chance.below(t as u64 + 1) as usize
    };
    put_confidences(chance, &mut column.found.confidences[..n], blank);
    let any = chance.word() as u32;
    column.round = if faults.contains(&17) {
        chance.pick(&[0, 1, 2, 3, 5, u32::MAX, any.max(5)])
    } else {
        4
    };
    column
}

/// The first line that applies is the answer. Answers how many records have a level.
pub fn records_of_random_bits(chance: &mut Chance, count: u32) -> u32 {
    let mut levels = 0;
    for _ in 0..count {
        let faults = some_lines(chance);
        let column = faulty_record(chance, &faults);
        let found = compared_record("a record of random bits", &column);
        let first = faults.first().copied().unwrap_or(0);
        assert_eq!(found.answer, first, "where lines {faults:?} apply");
        levels += u32::from(first == 0);
    }
    levels
}
