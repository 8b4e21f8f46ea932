//! Values as words: bytes joined by points, hexadecimal bytes, a height with its sign, or blank.

use crate::remainders::Value;

pub const BYTES_OF_A_HEIGHT: usize = 4;

/// The w bytes that a word stands for.
pub fn value(word: &str, w: usize) -> Result<Value, String> {
    let bytes = if word == "-" {
        vec![0; w]
    } else if word.starts_with(['+', '-']) {
        height(word, w)?
    } else if let Some(digits) = word.strip_prefix("0x") {
        hexadecimal(word, digits)?
    } else {
        word.split('.')
            .map(byte)
            .collect::<Result<Value, String>>()?
    };
    if bytes.len() == w {
        return Ok(bytes);
    }
    Err(format!(
        "a value has {} here, and `{word}` has {}",
        counted(w),
        bytes.len()
    ))
}

/// A number of one byte, decimal or, after 0x, hexadecimal.
pub fn byte(word: &str) -> Result<u8, String> {
    let parsed = match word.strip_prefix("0x") {
        Some(digits) if is_hexadecimal(digits) => u8::from_str_radix(digits, 16).ok(),
        _ if word.bytes().all(|digit| digit.is_ascii_digit()) => word.parse().ok(),
        _ => None,
    };
    parsed.ok_or_else(|| format!("`{word}` is no number from 0 to 255"))
}

/// Bytes joined by points, as a listing has them.
pub fn pointed(bytes: &[u8]) -> String {
    if bytes.is_empty() {
        return "-".to_string();
    }
    let words: Vec<String> = bytes.iter().map(u8::to_string).collect();
    words.join(".")
}

/// The word for a value: blank, a height where these are asked for and the size is that of one, or bytes.
pub fn printed(value: &[u8], heights: bool) -> String {
    if value.iter().all(|&byte| byte == 0) {
        return "-".to_string();
    }
    match value.try_into().map(i32::from_be_bytes) {
        Ok(height) if heights => format!("{height:+}"),
        _ => pointed(value),
    }
}

pub fn counted(bytes: usize) -> String {
    if bytes == 1 {
        "1 byte".to_string()
    } else {
        format!("{bytes} bytes")
    }
}

fn height(word: &str, w: usize) -> Result<Value, String> {
    if w != BYTES_OF_A_HEIGHT {
        return Err(format!(
            "`{word}` is a height, and a value has {} here, not {BYTES_OF_A_HEIGHT}",
            counted(w)
        ));
    }
    let parsed: Result<i32, _> = word.parse();
    parsed
        .map(|height| height.to_be_bytes().to_vec())
        .map_err(|_| format!("`{word}` is no height of 32 bits"))
}

fn hexadecimal(word: &str, digits: &str) -> Result<Value, String> {
    if !is_hexadecimal(digits) || digits.len() % 2 != 0 {
        return Err(format!(
            "`{word}` does not have two hexadecimal digits for each byte"
        ));
    }
    (0..digits.len())
        .step_by(2)
        .map(|at| byte(&format!("0x{}", &digits[at..at + 2])))
        .collect()
}

fn is_hexadecimal(digits: &str) -> bool {
    digits.bytes().all(|digit| digit.is_ascii_hexdigit())
}

#[cfg(test)]
mod tests {
    use super::*;

    #[test]
    fn one_value_in_every_form() {
        for word in ["0.0.3.236", "0x000003ec", "0x000003EC", "+1004"] {
            assert_eq!(value(word, 4), Ok(vec![0, 0, 3, 236]));
        }
        assert_eq!(value("-5", 4), Ok(vec![255, 255, 255, 251]));
        assert_eq!(value("-", 4), Ok(vec![0; 4]));
        assert_eq!(value("+0", 4), Ok(vec![0; 4]));
        assert_eq!(value("241", 1), Ok(vec![241]));
        assert_eq!(value("-", 0), Ok(vec![]));
    }

    #[test]
    fn words_that_are_no_value() {
        for word in [
            "",
            "1.2.3",
            "1.2.3.4.5",
            "1..3.4",
            "256.0.0.0",
            "0x",
            "0x0",
            "0x+1020304",
            "+",
            "+2147483648",
            "1004",
            "- ",
        ] {
            assert!(value(word, 4).is_err(), "{word}");
        }
        assert!(value("+5", 1).is_err());
        assert!(value("+5", 5).is_err());
    }

    #[test]
    fn heights_at_both_ends() {
        for height in [i32::MIN, -1, 1, i32::MAX] {
            let word = format!("{height:+}");
            assert_eq!(value(&word, 4).map(|bytes| printed(&bytes, true)), Ok(word));
        }
        assert_eq!(printed(&[0; 4], true), "-");
        assert_eq!(printed(&[1, 2], true), "1.2");
    }
}
