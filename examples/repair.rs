//! Repair by itself: the values that a column has of four, two bytes each, repaired by the check values that a neighbour has sent, and how
//! far the search for wrong places went in each of the two byte planes.
//!
//!     (cd crates/sajowemi && rt lib)
//!     cd rust && cargo run --example repair

use sajowemi::{Refusal, Repair, Settings, check_values, repair};

const SETTINGS: Settings = Settings { n: 4, t: 1, w: 2 };

/// The vector repaired; how many places were changed; and how many were tried in each plane, up to the last wrong one.
fn print_repaired(which: &str, heard: [u8; 8], checks: &[u8]) -> Result<(), Refusal> {
    let mut output = [0; 8];
    let (found, changed, tried) = match repair(SETTINGS, &heard, checks, &mut output)? {
        Repair::Repaired { changed, tried } => {
            let values: Vec<String> = output
                .chunks(2)
                .map(|value| format!("{}.{}", value[0], value[1]))
                .collect();
            (values.join(" "), changed, tried)
        }
        Repair::Nothing { tried } => ("no vector is near enough".to_string(), 0, tried),
    };
    println!("{which}: {found}");
    print!("  {changed} changed, tried");
    for places in tried.planes() {
        print!(" {places}");
    }
    println!();
    Ok(())
}

#[rustfmt::skip]
fn main() -> Result<(), Refusal> {
    let sent = [10, 11, 20, 21, 30, 31, 40, 41];
    let mut checks = [0; 4];
    check_values(SETTINGS, &sent, &mut checks)?;
    print_repaired("all heard as sent", sent, &checks)?;
    print_repaired("one byte of column 3 wrong", [10, 11, 20, 21, 30, 99, 40, 41], &checks)?;
    print_repaired("columns 1 and 4 wrong, one in each plane", [99, 11, 20, 21, 30, 31, 40, 98], &checks)?;
    print_repaired("columns 1 and 2 wrong, both in the first plane", [99, 11, 98, 97, 30, 31, 40, 41], &checks)
}
