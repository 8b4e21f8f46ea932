//! From text to a bench file: a line, a command.

use crate::commands::{CHECKS, END, GROUP, OWN, Settings, VALUE};
use crate::remainders::{Coder, Value};
use crate::values::{byte, value};

/// The file; or none and what is wrong, line by line.
pub fn file(text: &str) -> (Option<Vec<u8>>, Vec<String>) {
    let mut file = Vec::new();
    let mut complaints = Vec::new();
    let mut settings = None;
    for (at, line) in text.lines().enumerate() {
        match command(line, settings) {
            Ok(bytes) => {
                if bytes.first() == Some(&GROUP) && !is_raw(line) {
                    settings = Some(Settings::new(&bytes[1..]));
                }
                file.extend(bytes);
            }
            Err(why) => complaints.push(format!("line {}: {why}", at + 1)),
        }
    }
    (complaints.is_empty().then_some(file), complaints)
}

fn words(line: &str) -> Vec<&str> {
    line.split('#')
        .next()
        .unwrap_or(line)
        .split_whitespace()
        .collect()
}

fn is_raw(line: &str) -> bool {
    words(line).first() == Some(&"bytes")
}

/// The bytes of a line; none of them where it is empty or a comment.
fn command(line: &str, settings: Option<Settings>) -> Result<Vec<u8>, String> {
    let words = words(line);
    match words[..] {
        [] => Ok(Vec::new()),
        ["group", n, t, w] => Ok(vec![GROUP, byte(n)?, byte(t)?, byte(w)?]),
        ["group", ..] => Err("write: group COLUMNS BAD BYTES".to_string()),
        ["own", column, own] => {
            Ok([vec![OWN, byte(column)?], value(own, known(settings)?.w)?].concat())
        }
        ["own", ..] => Err("write: own COLUMN VALUE".to_string()),
        ["value", from, to, sent] => Ok([
            vec![VALUE, byte(from)?, byte(to)?],
            value(sent, known(settings)?.w)?,
        ]
        .concat()),
        ["value", ..] => Err("write: value FROM TO VALUE".to_string()),
        ["checks", round, from, to, ref sent @ ..] => {
            let head = vec![CHECKS, byte(round)?, byte(from)?, byte(to)?];
            Ok([head, checks(sent, known(settings)?)?.concat()].concat())
        }
        ["checks", ..] => {
            Err("write: checks ROUND FROM TO CHECKS, or checks ROUND FROM TO of VECTOR".to_string())
        }
        ["end"] => Ok(vec![END]),
        ["end", ..] => Err("write: end, and nothing else on the line".to_string()),
        ["bytes", ref bytes @ ..] => bytes.iter().map(|word| byte(word)).collect(),
        [name, ..] => Err(format!(
            "`{name}` is no command: group, own, value, checks, end or bytes"
        )),
    }
}

fn known(settings: Option<Settings>) -> Result<Settings, String> {
    settings.ok_or_else(|| "no group yet, so that the bytes of a value are not known".to_string())
}

/// The check values of a line: as they stand, or of the vector that stands there.
fn checks(words: &[&str], settings: Settings) -> Result<Vec<Value>, String> {
    match words {
        ["of", vector @ ..] => {
            if !settings.are_allowed() {
                return Err(
                    "there is no code for the group's settings: write the check values themselves"
                        .to_string(),
                );
            }
            let vector = values(
                vector,
                settings.n,
                "values, one for each column",
                settings.w,
            )?;
            Ok(Coder::new(settings.n, settings.check_count()).checks(&vector))
        }
        _ => values(words, settings.check_count(), "check values", settings.w),
    }
}

fn values(words: &[&str], count: usize, what: &str, w: usize) -> Result<Vec<Value>, String> {
    if words.len() != count {
        return Err(format!(
            "there are {} and should be {count} {what}",
            words.len()
        ));
    }
    words.iter().map(|word| value(word, w)).collect()
}

#[cfg(test)]
mod tests {
    use super::*;

    fn complaints(text: &str) -> Vec<String> {
        let (file, complaints) = file(text);
        assert!(file.is_none());
        complaints
    }

    #[test]
    fn comments_and_empty_lines_are_no_bytes() {
        assert_eq!(
            file("\n# only words\n  group 4 1 1 # four\r\n\tend").0,
            Some(vec![1, 4, 1, 1, 15])
        );
        assert_eq!(file("").0, Some(vec![]));
    }

    #[test]
    fn faulty_operands_are_written() {
        assert_eq!(
            file("group 33 200 9\nend\nend").0,
            Some(vec![1, 33, 200, 9, 15, 15])
        );
        assert_eq!(
            file("group 4 0 1\nchecks 7 255 0").0,
            Some(vec![1, 4, 0, 1, 3, 7, 255, 0])
        );
    }

    #[test]
    fn checks_of_a_vector() {
        let (written_out, worked_out) = ("checks 2 4 1 82 30", "checks 2 4 1 of 241 86 35 40");
        let of = |line: &str| file(&format!("group 4 1 1\n{line}\n")).0;
        assert_eq!(of(worked_out), of(written_out));
        assert_eq!(of(written_out), Some(vec![1, 4, 1, 1, 3, 2, 4, 1, 82, 30]));
    }

    #[test]
    fn every_complaint_has_its_line() {
        let text = "own 1 7\ngroup 4 1 2\n\nown 1 7\nchecks 2 4 1 1.2\nchecks 2 4 1 of 1.2\nvalue 256 1 -\nvalues\nend now\n";
        let told = [
            "line 1: no group yet, so that the bytes of a value are not known",
            "line 4: a value has 2 bytes here, and `7` has 1",
            "line 5: there are 1 and should be 2 check values",
            "line 6: there are 1 and should be 4 values, one for each column",
            "line 7: `256` is no number from 0 to 255",
            "line 8: `values` is no command: group, own, value, checks, end or bytes",
            "line 9: write: end, and nothing else on the line",
        ];
        assert_eq!(complaints(text), told);
    }
}
