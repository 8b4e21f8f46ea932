//! Bench files as text, in both directions; docs/BENCH.md describes the text.
//!
//!     bench-text to-bench < TEXT > FILE
//!     bench-text to-text [--heights] < FILE > TEXT
//!
//! Every file has a text, and its text gives back the same bytes. A text that cannot be read is complained of line by line,
//! and nothing is written; where a file is no sequence of commands, a complaint names the byte, and the text is whole all the same.

mod commands;
mod from_file;
mod from_text;
#[path = "../../models/remainders.rs"]
mod remainders;
mod values;

use std::io::{Read, Write, stdin, stdout};
use std::process::ExitCode;

const USAGE: &str =
    "usage: bench-text to-bench < TEXT > FILE, or bench-text to-text [--heights] < FILE > TEXT";

fn main() -> ExitCode {
    let arguments: Vec<String> = std::env::args().skip(1).collect();
    let words: Vec<&str> = arguments.iter().map(String::as_str).collect();
    let mut input = Vec::new();
    let (output, complaints) = match words[..] {
        ["to-bench"] => match stdin().read_to_end(&mut input) {
            Ok(_) => from_text::file(&String::from_utf8_lossy(&input)),
            Err(error) => (None, vec![error.to_string()]),
        },
        ["to-text"] | ["to-text", "--heights"] => match stdin().read_to_end(&mut input) {
            Ok(_) => from_file::text(&input, words.len() == 2),
            Err(error) => (None, vec![error.to_string()]),
        },
        _ => (None, vec![USAGE.to_string()]),
    };
    for complaint in &complaints {
        eprintln!("{complaint}");
    }
    match output.map(|bytes| stdout().write_all(&bytes)) {
        Some(Ok(())) => ExitCode::SUCCESS,
        Some(Err(error)) => {
            eprintln!("{error}");
            ExitCode::FAILURE
        }
        None => ExitCode::FAILURE,
    }
}
