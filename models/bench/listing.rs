//! The bench program a second time, from its description alone: the bytes of a bench file to the bytes of the listing.

use crate::exchange::{agreed, heard, held, is_blank};
use crate::group::{Group, read};
use crate::remainders::{Coder, Value};

pub fn listing(file: &[u8]) -> String {
    match read(file) {
        Ok(group) => listed(&group),
        Err(number) => format!("refused {number}\n"),
    }
}

fn listed(group: &Group) -> String {
    let coder = Coder::new(group.n, 2 * group.t);
    let agreed = agreed(group, &coder, &heard(group));
    let mut text = format!("group {} {} {}\n", group.n, group.t, group.w);
    for (column, held) in held(group, &coder, &agreed) {
        text += &column.to_string();
        for (value, confidence) in held {
            text += &format!(" {}/{confidence}", printed(&value));
        }
        text += "\n";
    }
    text
}

fn printed(value: &Value) -> String {
    if is_blank(value) {
        return "-".to_string();
    }
    let bytes: Vec<String> = value.iter().map(u8::to_string).collect();
    bytes.join(".")
}
