//! How far off each sender was (Ask 2), in worked cases: what rounds two and three told as written out here, as a search through all words
//! within one place has it, and as the library says; and what repair itself counts, with how many places it tries in each plane (Ask 5).

#[path = "../rust/src/archive.rs"]
mod archive;
#[path = "../models/division.rs"]
mod division;
#[path = "../models/frames.rs"]
mod frames;

use archive::{Column, MOST_COLUMNS, Repaired, VALUE_ROOM};
use division::check_values;
use frames::{command_of, frame};
use std::collections::BTreeSet;

const RUN: u16 = 7;
/// The marks as the numbers they are.
const MISSING: u8 = 254;
const NONE: u8 = 255;

/// One of four columns, t = 1: what it sends and hears in the three rounds, and what it must find.
struct Exchange {
    number: u32,
    w: u32,
    /// The operand of each column's frame by rounds, its own as it sends it. Where there is none, the only frame is of another run.
    sent: [[Option<&'static [u8]>; 4]; 3],
    /// V and Y.
    vectors: [&'static [u8]; 2],
    /// What rounds two and three told of columns 1 to 4.
    told: [[u8; 4]; 2],
}

const GOOD_VALUES: [Option<&[u8]>; 3] = [Some(&[241]), Some(&[86]), Some(&[35])];
const GOOD_CHECKS_IN_TWO: [Option<&[u8]>; 3] = [Some(&[39, 78]), Some(&[39, 78]), Some(&[82, 30])];
const GOOD_CHECKS_IN_THREE: [Option<&[u8]>; 3] =
    [Some(&[39, 78]), Some(&[39, 78]), Some(&[8, 182])];

const fn with_liar(
    [one, two, three]: [Option<&'static [u8]>; 3],
    liar: &'static [u8],
) -> [Option<&'static [u8]>; 4] {
    [one, two, three, Some(liar)]
}

/// The exchange of 004 as corrected: [39, 78] are the checks of [241, 86, 35, 35], [82, 30] those of [241, 86, 35, 40], which column 3 has
/// heard, and [8, 182] those of [241, 86, 35, 0], on which it agrees.
///
/// Columns 1 and 2 find each other right, and column 3 off by one place, column 4, which it has at 40 and then blank. Column 4 they find off
/// by one place as well: [22, 61] belong to [241, 49, 35, 35], [0, 136] to [241, 86, 129, 35], and [87, 61] to [241, 86, 0, 35].
/// Column 3 finds columns 1 and 2 off by the same place as they find it, and column 4 by one: near [241, 86, 35, 40], [121, 143] belong to
/// [157, 86, 35, 40], and near [241, 86, 35, 0], [123, 149] belong to [241, 86, 35, 82].
const EXCHANGE_OF_004: [Exchange; 3] = [
    Exchange {
        number: 1,
        w: 1,
        sent: [
            with_liar(GOOD_VALUES, &[35]),
            with_liar(GOOD_CHECKS_IN_TWO, &[22, 61]),
            with_liar(GOOD_CHECKS_IN_THREE, &[87, 61]),
        ],
        vectors: [&[241, 86, 35, 35], &[241, 86, 35, 35]],
        told: [[0, 0, 1, 1], [0, 0, 1, 1]],
    },
    Exchange {
        number: 2,
        w: 1,
        sent: [
            with_liar(GOOD_VALUES, &[35]),
            with_liar(GOOD_CHECKS_IN_TWO, &[0, 136]),
            with_liar(GOOD_CHECKS_IN_THREE, &[87, 61]),
        ],
        vectors: [&[241, 86, 35, 35], &[241, 86, 35, 35]],
        told: [[0, 0, 1, 1], [0, 0, 1, 1]],
    },
    Exchange {
        number: 3,
        w: 1,
        sent: [
            with_liar(GOOD_VALUES, &[40]),
            with_liar(GOOD_CHECKS_IN_TWO, &[121, 143]),
            with_liar(GOOD_CHECKS_IN_THREE, &[123, 149]),
        ],
        vectors: [&[241, 86, 35, 40], &[241, 86, 35, 0]],
        told: [[1, 1, 0, 1], [1, 1, 0, 1]],
    },
];

/// Values of two bytes; every sender is found otherwise in round three than in round two.
///
/// Round two: column 1 sends the checks of V, [25, 40] and [104, 241], with one byte wrong: one place, a check. Column 4 sends those of V
/// with column 1 at [12, 11] and column 4 at [40, 43]: one place in each plane, two in all. So the rows have V's values of columns 2 and 3
/// three times, those of columns 1 and 4 twice: Y has only the former.
/// Round three: column 1 sends the checks of Y, [105, 130] and [245, 80], with both wrong in the second plane: nothing is near. Column 3
/// sends those of Y with column 1 at [10, 11]: both planes are wrong at one place.
const ROUNDS_APART: Exchange = Exchange {
    number: 2,
    w: 2,
    sent: [
        [
            Some(&[10, 11]),
            Some(&[20, 21]),
            Some(&[30, 31]),
            Some(&[40, 41]),
        ],
        [
            Some(&[25, 40, 104, 240]),
            Some(&[25, 40, 104, 241]),
            None,
            Some(&[130, 239, 123, 5]),
        ],
        [
            Some(&[105, 131, 245, 81]),
            Some(&[105, 130, 245, 80]),
            Some(&[67, 210, 192, 35]),
            None,
        ],
    ],
    vectors: [
        &[10, 11, 20, 21, 30, 31, 40, 41],
        &[0, 0, 20, 21, 30, 31, 0, 0],
    ],
    told: [[1, 0, MISSING, 2], [NONE, 0, 1, MISSING]],
};

/// The wrong places of a plane, of its values and then its two checks: none or one, found by every change of every place. None where no
/// codeword is that near.
fn wrong_in_plane(plane: &[u8]) -> Option<Vec<usize>> {
    let is_codeword = |word: &[u8]| {
        let (values, checks) = word.split_at(word.len() - 2);
        check_values(values, 1, 1) == checks
    };
    if is_codeword(plane) {
        return Some(vec![]);
    }
    let mut word = plane.to_vec();
    let mut found = vec![];
    for place in 0..plane.len() {
        for change in 1..=255 {
            word[place] = plane[place] ^ change;
            if is_codeword(&word) {
                found.push(place);
            }
        }
        word[place] = plane[place];
    }
    assert!(found.len() <= 1, "two codewords are near: {plane:?}");
    if found.is_empty() { None } else { Some(found) }
}

/// How many places are wrong in any plane, by the search; None where a plane has no codeword near.
fn searched(vector: &[u8], checks: &[u8], w: usize) -> Option<usize> {
    let values = [vector, checks].concat();
    let mut places = BTreeSet::new();
    for p in 0..w {
        let plane: Vec<u8> = values.iter().skip(p).step_by(w).copied().collect();
        places.extend(wrong_in_plane(&plane)?);
    }
    Some(places.len())
}

/// What the search tells of columns 1 to 4.
fn told_by_search(exchange: &Exchange, vector: &[u8], sent: &[Option<&[u8]>; 4]) -> [u8; 4] {
    [1, 2, 3, 4].map(|k| match sent[k - 1] {
        _ if k == exchange.number as usize => 0,
        None => MISSING,
        Some(checks) => {
            searched(vector, checks, exchange.w as usize).map_or(NONE, |places| places as u8)
        }
    })
}

/// These numbers, and zeros behind them.
fn in_room<const ROOM: usize>(numbers: &[u8]) -> [u8; ROOM] {
    let mut room = [0; ROOM];
    room[..numbers.len()].copy_from_slice(numbers);
    room
}

/// The record has these two lists, and its result the same; before the end the result is refused, with zeros.
fn assert_told(column: &Column, told: [&[u8]; 2], when: &str) {
    let found = &column.found;
    let told = told.map(in_room::<MOST_COLUMNS>);
    assert_eq!([found.told_two, found.told_three], told, "{when}");
    let held = archive::result(column);
    let (answer, told) = if column.round == 4 {
        (0, told)
    } else {
        (17, [[0; MOST_COLUMNS]; 2])
    };
    assert_eq!(
        (held.answer, [held.told_two, held.told_three]),
        (answer, told),
        "the result {when}"
    );
}

fn opened(n: u32, t: u32, w: u32, number: u32, own: &[u8]) -> Column {
    let outcome = archive::open(n, t, w, number, RUN, own);
    assert_eq!(outcome.answer, 0, "opening");
    outcome.column
}

fn taken(column: &Column, slot: usize, run: u16, operand: &[u8], answer: u32) -> Column {
    let lent = frame(command_of(column.round), slot as u8, run, operand);
    let outcome = archive::take(column, slot as u32, &lent);
    assert_eq!(outcome.answer, answer, "{lent:?}");
    outcome.column
}

fn closed(column: &Column) -> Column {
    let outcome = archive::close(column);
    assert_eq!(outcome.answer, 0, "closing");
    outcome.column
}

/// The column with the frames of its round taken, and the one that it sends itself compared.
fn heard(mut column: Column, sent: &[Option<&[u8]>; 4]) -> Column {
    for (k, operand) in (1..).zip(sent) {
        if k == column.who.number as usize {
            let own = operand.expect("a good column sends");
            let mut buffer = [0; archive::LONGEST_FRAME];
            assert_eq!(archive::send(&column, &mut buffer), 0, "sending");
            assert_eq!(buffer[4..][..own.len()], *own, "the own frame");
        } else if let Some(operand) = operand {
            column = taken(&column, k, RUN, operand, 0);
        } else {
            let size = archive::frame_size(&column) as usize;
            column = taken(&column, k, RUN + 1, &vec![1; size - 4], 13);
        }
    }
    column
}

fn told_in(exchange: &Exchange) {
    let Exchange {
        number,
        w,
        sent,
        vectors,
        told,
    } = exchange;
    let [two, three] = [0, 1].map(|k| {
        let searched = told_by_search(exchange, vectors[k], &sent[k + 1]);
        assert_eq!(searched, told[k], "the search, round {}", k + 2);
        &told[k][..]
    });
    let own = sent[0][*number as usize - 1].unwrap();
    let mut column = opened(4, 1, *w, *number, own);
    assert_told(&column, [&[], &[]], "after opening");
    column = heard(column, &sent[0]);
    assert_told(&column, [&[], &[]], "in round one");
    column = closed(&column);
    assert_eq!(column.found.heard[..vectors[0].len()], *vectors[0], "V");
    assert_told(&column, [&[], &[]], "after round one");
    column = heard(column, &sent[1]);
    assert_told(&column, [&[], &[]], "in round two");
    column = closed(&column);
    assert_eq!(column.found.agreed[..vectors[1].len()], *vectors[1], "Y");
    assert_told(&column, [two, &[]], "after round two");
    column = heard(column, &sent[2]);
    assert_told(&column, [two, &[]], "in round three");
    column = closed(&column);
    assert_told(&column, [two, three], "at the end");

    column.who.n = 0;
    let held = archive::result(&column);
    let nothing = [[0; MOST_COLUMNS]; 2];
    assert_eq!(
        (held.answer, [held.told_two, held.told_three]),
        (1, nothing)
    );
}

/// A value for each of n columns, no two alike.
fn some_vector(n: usize, w: usize) -> Vec<u8> {
    (0..n * w).map(|k| (k * 7 + 1) as u8).collect()
}

/// That vector and its checks, with bytes wrong: each in a place, from 0 on, the checks behind the columns, and a plane.
fn spoiled(n: usize, t: usize, w: usize, wrong: &[(usize, usize)]) -> (Vec<u8>, Vec<u8>) {
    let mut vector = some_vector(n, w);
    let checks = check_values(&vector, t, w);
    vector.extend(checks);
    for (place, plane) in wrong {
        vector[place * w + plane] ^= (place + 1) as u8;
    }
    let checks = vector.split_off(n * w);
    (vector, checks)
}

fn repair(
    n: usize,
    t: usize,
    w: usize,
    vector: &[u8],
    checks: &[u8],
    output: &mut [u8],
) -> (u32, u32, [u8; VALUE_ROOM]) {
    let Repaired {
        answer,
        changed,
        tried,
    } = archive::repair(n as u32, t as u32, w as u32, vector, checks, output);
    (answer, changed, tried)
}

/// n, t, w; what is wrong, by place and plane; how many places that are, and how many are tried in each plane up to the last of them.
#[rustfmt::skip]
const COUNTS: [((usize, usize, usize), &[(usize, usize)], u32, &[u8]); 15] = [
    ((4, 1, 3), &[], 0, &[0, 0, 0]),
    ((4, 1, 3), &[(3, 2)], 1, &[0, 0, 4]),
    // One place in two planes, and in all of them.
    ((4, 1, 3), &[(1, 0), (1, 1)], 1, &[2, 2, 0]),
    ((4, 1, 3), &[(1, 0), (1, 1), (1, 2)], 1, &[2, 2, 2]),
    // Another place in each plane.
    ((4, 1, 3), &[(0, 0), (2, 1)], 2, &[1, 3, 0]),
    ((4, 1, 3), &[(0, 0), (2, 1), (0, 2)], 2, &[1, 3, 1]),
    // Checks.
    ((4, 1, 3), &[(4, 1)], 1, &[0, 5, 0]),
    ((4, 1, 3), &[(5, 0), (5, 2)], 1, &[6, 0, 6]),
    ((4, 1, 3), &[(4, 0), (5, 1)], 2, &[5, 6, 0]),
    // More than t in all, columns and a check.
    ((4, 1, 3), &[(1, 0), (3, 1), (5, 2)], 3, &[2, 4, 6]),
    // The two of one plane and the two of the other have one in common.
    ((7, 2, 2), &[(0, 0), (1, 0), (1, 1), (2, 1)], 3, &[2, 3]),
    ((7, 2, 1), &[(2, 0), (10, 0)], 2, &[11]),
    ((7, 2, 4), &[(0, 0), (1, 0), (2, 1), (3, 1), (4, 2), (5, 2), (6, 3), (7, 3)], 8, &[2, 4, 6, 8]),
    ((1, 0, 8), &[], 0, &[0; 8]),
    ((31, 10, 1), &[(0, 0), (3, 0), (6, 0), (9, 0), (30, 0), (31, 0), (35, 0), (40, 0), (49, 0), (50, 0)], 10, &[51]),
];

fn counts() {
    for ((n, t, w), wrong, changed, tried) in COUNTS {
        let which = format!("n {n}, t {t}, w {w}, wrong {wrong:?}");
        let (vector, checks) = spoiled(n, t, w, wrong);
        if t == 1 {
            assert_eq!(
                searched(&vector, &checks, w),
                Some(changed as usize),
                "{which}"
            );
        }
        let mut output = vec![0; n * w];
        let answered = repair(n, t, w, &vector, &checks, &mut output);
        assert_eq!(
            (answered, output),
            ((0, changed, in_room(tried)), some_vector(n, w)),
            "{which}"
        );
    }
}

/// Nothing near in one plane, whatever the other says, and refusals: no place is counted, and the output keeps its bytes. A plane with
/// nothing near has all six places tried, and the other those up to its wrong one; a refusal has none.
fn nothing_counted() {
    // Both planes are [241, 86, 35, 35]: by [22, 77] nothing is near, by [0, 136] column 3 is wrong, by [22, 61] column 2.
    let vector = [241, 241, 86, 86, 35, 35, 35, 35];
    let mut output = [9; 8];
    for (checks, near, tried) in [
        ([22, 22, 77, 77], None, [6, 6]),
        ([22, 0, 77, 136], None, [6, 3]),
        ([0, 22, 136, 77], None, [3, 6]),
        ([0, 0, 136, 136], Some(1), [3, 3]),
        ([0, 22, 136, 61], Some(2), [3, 2]),
    ] {
        assert_eq!(searched(&vector, &checks, 2), near);
        let answered = repair(4, 1, 2, &vector, &checks, &mut output);
        let (answer, changed) = near.map_or((256, 0), |places| (0, places as u32));
        assert_eq!(answered, (answer, changed, in_room(&tried)));
        assert_eq!(output == [9; 8], near.is_none());
        output = [9; 8];
    }
    let checks = [0, 0, 136, 136];
    for (n, t, w, answer) in [
        (0, 1, 2, 1),
        (33, 1, 2, 1),
        (3, 1, 2, 2),
        (4, 1, 0, 3),
        (4, 1, 9, 3),
    ] {
        let answered = repair(n, t, w, &vector, &checks, &mut output);
        assert_eq!(answered, (answer, 0, [0; 8]));
    }
    for (vector, checks, room) in [
        (&vector[1..], &checks[..], 8),
        (&vector[..], &checks[1..], 8),
        (&vector[..], &checks[..], 7),
    ] {
        let answered = repair(4, 1, 2, vector, checks, &mut output[..room]);
        assert_eq!(answered, (18, 0, [0; 8]));
    }
    assert_eq!(output, [9; 8]);
}

/// The most places there are, all wrong and each in one of eight planes: repair counts 52, and a closing tells 52 of their sender.
fn all_wrong() {
    let wrong: Vec<(usize, usize)> = (0..52).map(|place| (place, place % 8)).collect();
    let (vector, checks) = spoiled(32, 10, 8, &wrong);
    let mut output = [0; 256];
    let answered = repair(32, 10, 8, &vector, &checks, &mut output);
    let tried = [49, 50, 51, 52, 45, 46, 47, 48];
    assert_eq!(
        (answered, &output[..]),
        ((0, 52, tried), &some_vector(32, 8)[..])
    );
    let mut column = opened(32, 10, 8, 1, &vector[..8]);
    for (k, value) in (1..).zip(vector.chunks(8)).skip(1) {
        column = taken(&column, k, RUN, value, 0);
    }
    let column = closed(&taken(&closed(&column), 2, RUN, &checks, 0));
    let mut told = [MISSING; 32];
    (told[0], told[1]) = (0, 52);
    assert_told(&column, [&told, &[]], "with all places wrong");
}

fn main() {
    EXCHANGE_OF_004.iter().for_each(told_in);
    told_in(&ROUNDS_APART);
    counts();
    nothing_counted();
    all_wrong();
    println!(
        "told: how far off each sender was, as worked out for four columns in two exchanges, and {} counts of repair with the places tried",
        COUNTS.len()
    );
}
