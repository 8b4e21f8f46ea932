//! Four columns on a truck repeat the exchange until the good ones stand level, though the fourth's radio reaches only some of them: whom
//! each holds for blank, what it takes for the level, how far it goes, and how far apart the good ones stand then.
//!
//!     (cd crates/sajowemi && rt lib)
//!     cd rust && cargo run --example level

use sajowemi::{Column, LONGEST_FRAME, Level, Refusal, Settings};
use std::error::Error;

const GOOD: usize = 3;
const COLUMNS: usize = 4;
const SETTINGS: Settings = Settings { n: 4, t: 1, w: 4 };
const FIRST_RUN: u16 = 7;

/// Distances are in tenths of a millimetre. One may stay, since a level is rounded down to a whole one.
const MAY_STAY: i64 = 1;

/// Which good columns hear column 4 in rounds one to three. Columns 1 and 2 end with its height at confidence 1 and column 3 with nothing
/// of it: they drop different heights, and their levels differ.
const HEARS_COLUMN_4: [[bool; GOOD]; 3] = [
    [true, true, false],
    [false, true, false],
    [true, true, false],
];

/// A height is sent as four bytes, high byte first. Height 0 is blank, and refused with 6 in this edition: here all heights are above
/// it, and so are all levels.
fn open_at(number: u32, run: u16, height: i64) -> Result<Column, Refusal> {
    Column::open(SETTINGS, number, run, &(height as i32).to_be_bytes())
}

/// A column's frame of its round, to the others; of column 4, to those that hear it.
fn send_to_others(columns: &mut [Column], sender: usize, round: usize) -> Result<(), Refusal> {
    let number = columns[sender].number();
    let mut buffer = [0; LONGEST_FRAME];
    let frame = columns[sender].send(&mut buffer)?;
    for (k, column) in columns.iter_mut().enumerate() {
        if k != sender && (sender < GOOD || HEARS_COLUMN_4[round][k]) {
            // On the air a refused frame is counted, and the column goes on.
            column.take(number, frame)?;
        }
    }
    Ok(())
}

/// One exchange. Each has a run number of its own: a frame that comes late, from the one before, is refused.
fn exchange(heights: &[i64], run: u16) -> Result<Vec<Column>, Refusal> {
    let mut columns = Vec::new();
    for (number, height) in (1..).zip(heights) {
        columns.push(open_at(number, run, *height)?);
    }
    for round in 0..3 {
        for k in 0..COLUMNS {
            send_to_others(&mut columns, k, round)?;
        }
        for column in &mut columns {
            column.close()?;
        }
    }
    Ok(columns)
}

/// Whom a column holds for blank. One bad column is borne: with one blank no height is dropped, with none the lowest and the highest are,
/// and with two there is no level.
fn print_blank(column: &Column) -> Result<(), Refusal> {
    let number = column.number();
    for (of, (_, confidence)) in (1..).zip(column.result()?.all()) {
        if confidence == 0 {
            println!(
                "  column {number} holds column {of} for blank, at confidence 0: no height of it counts"
            );
        }
    }
    Ok(())
}

fn mm(tenths: i64) -> String {
    let sign = if tenths < 0 { "-" } else { "" };
    format!("{sign}{}.{} mm", tenths.abs() / 10, tenths.abs() % 10)
}

/// What a column takes for the level, and the way there, which its motor goes.
fn go_to_level(column: &Column, height: &mut i64) -> Result<(), Refusal> {
    let Level { level, correction } = column.level()?;
    let way = match correction {
        0 => "stays".to_string(),
        1.. => format!("up {}", mm(correction)),
        _ => format!("down {}", mm(-correction)),
    };
    println!(
        "  column {} at {}: level {}, {way}",
        column.number(),
        mm(*height),
        mm(level)
    );
    *height += correction;
    Ok(())
}

/// How far the lowest and the highest good column are apart.
fn spread(heights: &[i64]) -> i64 {
    let good = &heights[..GOOD];
    let ends = good.iter().min().zip(good.iter().max());
    ends.map_or(0, |(lowest, highest)| highest - lowest)
}

fn main() -> Result<(), Box<dyn Error>> {
    // Column 4 stands far above the others, and pulls none beyond 101.0 mm.
    let mut heights = [1000, 1006, 1010, 1050];
    let mut apart = spread(&heights);
    let mut run = FIRST_RUN;
    while apart > MAY_STAY {
        println!(
            "columns 1 to 3 stand within {}: exchange of run {run}",
            mm(apart)
        );
        let columns = exchange(&heights, run)?;
        // Column 4 too, which cannot know that it is not heard: nothing is promised of it.
        for (column, height) in columns.iter().zip(&mut heights) {
            print_blank(column)?;
            go_to_level(column, height)?;
        }
        let now = spread(&heights);
        // At most half is promised, rounded up: so the exchanges come to an end.
        if now > (apart + 1) / 2 {
            return Err("more columns are bad than are borne, or frames came late".into());
        }
        apart = now;
        run = run.wrapping_add(1);
    }
    println!("columns 1 to 3 stand within {}: level", mm(apart));
    Ok(())
}
