//! Four columns, one of which lies: what the good ones believe at the end, how far off they found each other, and whose frames were
//! refused.
//!
//!     (cd crates/sajowemi && rt lib)
//!     cd rust && cargo run --example group

use sajowemi::{Column, LONGEST_FRAME, Refusal, Settings, Told};

const LIAR: u32 = 4;
const RUN: u8 = 7;

/// What column 4 tells columns 1 to 3: heights in round one, check values in rounds two and three.
const LIES: [[&[u8]; 3]; 3] = [
    [&[35], &[35], &[40]],
    [&[22, 61], &[0, 136], &[121, 143]],
    [&[87, 61], &[87, 61], &[123, 149]],
];
const COMMANDS: [u8; 3] = [0x11, 0x22, 0x33];

/// How often columns 1 to 3 hear each frame of columns 1 to 4: column 1's echoes off the truck, and column 4's radio repeats itself.
const TIMES_HEARD: [[u32; 4]; 3] = [[0, 1, 1, 1], [1, 0, 1, 2], [2, 1, 0, 3]];

/// What the radio hands a column in a slot. A frame that is refused 9 to 15 is counted for its slot, and the column goes on; another
/// refusal would be this program's fault.
fn hear(column: &mut Column, slot: u32, frame: &[u8]) -> Result<(), Refusal> {
    for _ in 0..TIMES_HEARD[column.number() as usize - 1][slot as usize - 1] {
        match column.take(slot, frame) {
            Err(fault) if fault.number() < Refusal::FrameCutShort.number() => return Err(fault),
            _ => (),
        }
    }
    Ok(())
}

/// A column's frame of its round, to the other good ones: those that have not closed the round before keep it for the next.
fn send_to_others(columns: &mut [Column], sender: usize) -> Result<(), Refusal> {
    let number = columns[sender].number();
    let mut buffer = [0; LONGEST_FRAME];
    let frame = columns[sender].send(&mut buffer)?;
    for column in columns {
        hear(column, number, frame)?;
    }
    Ok(())
}

/// Who was off in a round. A good sender may be off by as many places as there are bad columns, here one; more than t, or a mark, is a
/// radio to look at.
fn print_told(round: &str, told: impl Fn(u32) -> Option<Told>) {
    let off: Vec<String> = (1..)
        .map_while(|k| Some((k, told(k)?)))
        .filter_map(|(k, told)| match told {
            Told::Changed(0) => None,
            Told::Changed(1) => Some(format!("column {k} off by 1 place")),
            Told::Changed(places) => Some(format!("column {k} off by {places} places")),
            Told::Missing => Some(format!("column {k} not heard")),
            Told::Nothing => Some(format!("column {k} too far off to tell")),
        })
        .collect();
    let off = if off.is_empty() {
        "nobody off".to_string()
    } else {
        off.join(", ")
    };
    println!("  round {round}: {off}");
}

/// Whose frames were refused: of a frame that is heard more than once, all but the first.
fn print_refused(column: &Column) {
    let of_each: Vec<String> = (1..)
        .map_while(|k| Some((k, column.refused(k)?)))
        .filter(|(_, count)| *count > 0)
        .map(|(k, count)| format!("{count} of column {k}"))
        .collect();
    let before = if of_each.is_empty() { "" } else { ": " };
    let in_all = column.refused_in_all();
    println!("  {in_all} frames refused{before}{}", of_each.join(", "));
}

fn main() -> Result<(), Refusal> {
    let settings = Settings { n: 4, t: 1, w: 1 };
    let mut columns = Vec::new();
    for (number, height) in [(1, 241), (2, 86), (3, 35)] {
        columns.push(Column::open(settings, number, RUN.into(), &[height])?);
    }
    for round in 0..3 {
        // Column 1 is ahead: its frame comes early to the others.
        for k in 0..columns.len() {
            if round > 0 {
                columns[k].close()?;
            }
            send_to_others(&mut columns, k)?;
            let lie = [&[COMMANDS[round], LIAR as u8, 0, RUN], LIES[round][k]].concat();
            hear(&mut columns[k], LIAR, &lie)?;
        }
    }
    for column in &mut columns {
        column.close()?;
        let beliefs = column.result()?;
        print!("column {} believes:", column.number());
        for (value, confidence) in beliefs.all() {
            print!(" {}/{confidence}", value[0]);
        }
        println!();
        print_told("two", |k| beliefs.told_two(k));
        print_told("three", |k| beliefs.told_three(k));
        print_refused(column);
    }
    Ok(())
}
