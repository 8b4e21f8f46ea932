//! From a bench file to text: its commands as far as they go, and bytes from there on.

use crate::commands::{CHECKS, END, GROUP, LONGEST_FILE, OWN, Settings, VALUE, length};
use crate::values::{counted, pointed, printed};

const BYTES_ON_A_LINE: usize = 16;

/// The text, and why a part of it stands as bytes.
pub fn text(file: &[u8], heights: bool) -> (Option<Vec<u8>>, Vec<String>) {
    let mut text = String::new();
    let mut complaints = Vec::new();
    if file.len() > LONGEST_FILE {
        complaints.push(format!(
            "byte {LONGEST_FILE}: longer than a bench file may be"
        ));
    }
    let mut settings = None;
    let mut at = 0;
    loop {
        let fault = match file.get(at) {
            None => Some("the file stops without an end".to_string()),
            Some(&command) => fault(command, &file[at..], settings),
        };
        if let Some(why) = fault {
            complaints.push(format!("byte {at}: {why}"));
            break;
        }
        let command = &file[at..at + length(file[at], settings).unwrap_or(1)];
        at += command.len();
        if command[0] == GROUP {
            settings = Some(Settings::new(&command[1..]));
        }
        text += &line(command, settings, heights);
        if command[0] == END {
            if at < file.len() {
                complaints.push(format!(
                    "byte {at}: {} after the end",
                    counted(file.len() - at)
                ));
            }
            break;
        }
    }
    for bytes in file[at..].chunks(BYTES_ON_A_LINE) {
        text += &format!("bytes{}\n", spaced(bytes));
    }
    (Some(text.into_bytes()), complaints)
}

/// Why the file's rest does not begin with a whole command.
fn fault(command: u8, rest: &[u8], settings: Option<Settings>) -> Option<String> {
    match length(command, settings) {
        Some(length) if length <= rest.len() => None,
        Some(length) => Some(format!(
            "command {command} has {}, and {} are left",
            counted(length),
            rest.len()
        )),
        None if [OWN, VALUE, CHECKS].contains(&command) => {
            Some(format!("command {command} before a group"))
        }
        None => Some(format!("{command} is no command")),
    }
}

/// The line of a whole command.
fn line(command: &[u8], settings: Option<Settings>, heights: bool) -> String {
    match command[0] {
        GROUP => format!("group{}\n", spaced(&command[1..])),
        OWN => format!("own {} {}\n", command[1], printed(&command[2..], heights)),
        VALUE => format!(
            "value{} {}\n",
            spaced(&command[1..3]),
            printed(&command[3..], heights)
        ),
        CHECKS => format!(
            "checks{}{}\n",
            spaced(&command[1..4]),
            checks(&command[4..], settings)
        ),
        _ => "end\n".to_string(),
    }
}

fn spaced(bytes: &[u8]) -> String {
    bytes.iter().map(|byte| format!(" {byte}")).collect()
}

/// Check values are no heights, and 0 among them is no blank.
fn checks(bytes: &[u8], settings: Option<Settings>) -> String {
    let Some(settings) = settings else {
        return String::new();
    };
    let check = |c: usize| format!(" {}", pointed(&bytes[c * settings.w..(c + 1) * settings.w]));
    (0..settings.check_count()).map(check).collect()
}

#[cfg(test)]
mod tests {
    use super::*;
    use crate::from_text;

    fn complaints(file: &[u8]) -> Vec<String> {
        let (text, complaints) = text(file, false);
        let text = String::from_utf8(text.unwrap()).unwrap();
        assert_eq!(
            from_text::file(&text),
            (Some(file.to_vec()), vec![]),
            "{text}"
        );
        complaints
    }

    #[test]
    fn lines_of_commands() {
        let file = [
            1, 4, 1, 4, 4, 1, 0, 0, 3, 236, 2, 2, 1, 0, 0, 0, 0, 3, 2, 2, 1, 0, 0, 0, 0, 9, 8, 7,
            6, 15,
        ];
        let head = "group 4 1 4\nown 1 ";
        let tail = "\nvalue 2 1 -\nchecks 2 2 1 0.0.0.0 9.8.7.6\nend\n";
        assert_eq!(
            text(&file, false).0,
            Some(format!("{head}0.0.3.236{tail}").into_bytes())
        );
        assert_eq!(
            text(&file, true).0,
            Some(format!("{head}+1004{tail}").into_bytes())
        );
        assert!(complaints(&file).is_empty());
    }

    #[test]
    fn every_fault_has_its_byte() {
        assert_eq!(complaints(&[]), ["byte 0: the file stops without an end"]);
        assert_eq!(complaints(&[4, 1, 7]), ["byte 0: command 4 before a group"]);
        assert_eq!(
            complaints(&[1, 4]),
            ["byte 0: command 1 has 4 bytes, and 2 are left"]
        );
        assert_eq!(complaints(&[1, 4, 1, 1, 9]), ["byte 4: 9 is no command"]);
        assert_eq!(
            complaints(&[1, 4, 1, 1, 4, 1]),
            ["byte 4: command 4 has 3 bytes, and 2 are left"]
        );
        assert_eq!(
            complaints(&[1, 4, 1, 1, 15, 15]),
            ["byte 5: 1 byte after the end"]
        );
        assert_eq!(complaints(&[1, 1, 0, 0, 4, 1, 15]), [""; 0]);
    }

    #[test]
    fn a_long_file_is_whole() {
        assert_eq!(complaints(&[7; LONGEST_FILE]).len(), 1);
        assert_eq!(complaints(&[7; LONGEST_FILE + 1]).len(), 2);
    }
}
