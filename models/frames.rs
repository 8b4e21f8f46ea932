//! Frames by their table: command, sender, run number with the high byte first, operand.

pub fn frame(command: u8, sender: u8, run: u16, operand: &[u8]) -> Vec<u8> {
    let [high, low] = run.to_be_bytes();
    [&[command, sender, high, low], operand].concat()
}

/// The command of a round's frame; 0, which is none, for a round without frames.
pub fn command_of(round: u32) -> u8 {
    match round {
        1 => 0x11,
        2 => 0x22,
        3 => 0x33,
        _ => 0,
    }
}

/// Whole length of the frame that a command begins; none for an unknown command.
pub fn frame_length(command: u8, t: u32, w: u32) -> Option<usize> {
    match command {
        0x11 => Some(4 + w as usize),
        0x22 | 0x33 => Some(4 + 2 * t as usize * w as usize),
        _ => None,
    }
}
