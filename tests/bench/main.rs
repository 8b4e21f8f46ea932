//! The bench program against a second implementation, over random files: valid, adversarial and damaged.
//!
//!     serve                       standard input to standard output, as the second implementation has it
//!     longest                     a whole file of the greatest length to standard output, the same in every run
//!     compare PROGRAM COUNT       runs the program on so many files and compares what it writes
//!     round-trip TOOL COUNT       each file to text and back by the tool, in both forms of the text

#[path = "../../models/draw.rs"]
mod draw;
#[path = "../../models/bench/exchange.rs"]
mod exchange;
mod faults;
#[path = "../../models/bench/group.rs"]
mod group;
#[path = "../../models/linear.rs"]
mod linear;
#[path = "../../models/bench/listing.rs"]
mod listing;
#[path = "../../models/remainders.rs"]
mod remainders;
mod run;
mod valid;

use draw::Draw;
use std::collections::BTreeMap;
use std::io::{Read, Write};
use std::process::ExitCode;

const SEED: u64 = 4;

fn main() -> ExitCode {
    let arguments: Vec<String> = std::env::args().skip(1).collect();
    let words: Vec<&str> = arguments.iter().map(String::as_str).collect();
    let done = match words[..] {
        ["serve"] => serve(),
        ["longest"] => longest(),
        ["compare", program, count] => number(count).and_then(|count| compare(program, count)),
        ["round-trip", tool, count] => number(count).and_then(|count| round_trip(tool, count)),
        _ => Err(
            "usage: serve | longest | compare PROGRAM COUNT | round-trip TOOL COUNT".to_string(),
        ),
    };
    match done {
        Ok(()) => ExitCode::SUCCESS,
        Err(why) => {
            eprintln!("{why}");
            ExitCode::FAILURE
        }
    }
}

fn number(word: &str) -> Result<usize, String> {
    word.parse().map_err(|_| format!("not a number: {word}"))
}

fn serve() -> Result<(), String> {
    let mut file = Vec::new();
    let read = std::io::stdin().read_to_end(&mut file);
    let written =
        read.and_then(|_| std::io::stdout().write_all(listing::listing(&file).as_bytes()));
    written.map_err(|error| error.to_string())
}

fn longest() -> Result<(), String> {
    let file = valid::commands_of_length(&mut Draw::new(SEED), group::LONGEST_FILE).concat();
    let written = std::io::stdout().write_all(&file);
    written.map_err(|error| error.to_string())
}

fn compare(program: &str, count: usize) -> Result<(), String> {
    let mut draw = Draw::new(SEED);
    let mut outcomes: BTreeMap<String, usize> = BTreeMap::new();
    for turn in 1..=count {
        let file = faults::file_of_turn(&mut draw, turn);
        let wanted = listing::listing(&file);
        let written = run::output(program, &[], &file)?;
        if written != wanted.as_bytes() {
            let parts = [
                ("bench", &file[..]),
                ("wanted", wanted.as_bytes()),
                ("written", &written),
            ];
            return Err(run::keep(
                &format!("file {turn} of {count} differs"),
                &parts,
            ));
        }
        *outcomes.entry(outcome(&wanted)).or_default() += 1;
    }
    let told: Vec<String> = outcomes
        .iter()
        .map(|(what, times)| format!("{what} {times}"))
        .collect();
    println!("{count} files alike: {}", told.join(", "));
    Ok(())
}

/// What a file came to, by which files are counted.
fn outcome(listing: &str) -> String {
    let has = |confidence| listing.contains(confidence);
    match listing.strip_prefix("refused ") {
        Some(number) => format!("refused {:>2}:", number.trim_end()),
        None if has("/1") => "listed, some at confidence 1:".to_string(),
        None if has("/0") => "listed, some at confidence 0:".to_string(),
        None => "listed, all at confidence 2:".to_string(),
    }
}

fn round_trip(tool: &str, count: usize) -> Result<(), String> {
    let mut draw = Draw::new(SEED);
    let mut bytes = 0;
    for turn in 1..=count {
        let file = if turn % 4 == 0 {
            let length = draw.below(200);
            draw.bytes(length)
        } else {
            faults::file(&mut draw)
        };
        for form in [&["to-text"][..], &["to-text", "--heights"]] {
            let text = run::output(tool, form, &file)?;
            let again = run::output(tool, &["to-bench"], &text)?;
            if again != file {
                let parts = [("bench", &file[..]), ("text", &text), ("again", &again)];
                return Err(run::keep(
                    &format!("file {turn} of {count} comes back changed"),
                    &parts,
                ));
            }
        }
        bytes += file.len();
    }
    println!("{count} files of {bytes} bytes to text and back: unchanged");
    Ok(())
}
