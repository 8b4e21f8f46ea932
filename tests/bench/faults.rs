//! Faults to put into a bench file: one for each reason to refuse it, and damage as files take it on their way.

use crate::draw::Draw;
use crate::group::{CHECKS, END, GROUP, LONGEST_FILE, OWN, VALUE};
use crate::valid::{Commands, commands, commands_of_length};

type Fault = fn(&mut Draw, &mut Commands);

/// A fault in one command, or in the order of commands.
const IN_COMMANDS: [Fault; 18] = [
    group_of_other_size,
    group_with_more_bad,
    group_of_other_values,
    group_of_edges,
    own_blank,
    own_blank,
    own_again,
    other_column,
    other_column,
    message_again,
    any_message,
    other_round,
    other_command,
    faulty_and_cut,
    faulty_and_cut,
    moved,
    repeated,
    removed,
];

/// A fault in the bytes, whatever they stand for.
const IN_BYTES: [Fault; 5] = [cut, changed_bytes, inserted, removed_byte, continued];

/// The files of a run: whole ones of a length at the limit first, then any.
pub fn file_of_turn(draw: &mut Draw, turn: usize) -> Vec<u8> {
    match turn {
        1..=3 => commands_of_length(draw, LONGEST_FILE - 2 + turn).concat(),
        _ => file(draw),
    }
}

/// A file: without fault, with one or more of them, of a length at the limit, or of bytes drawn at random.
pub fn file(draw: &mut Draw) -> Vec<u8> {
    if draw.one_in(150) {
        return at_the_limit(draw);
    }
    if draw.one_in(60) {
        return noise(draw);
    }
    let mut commands = commands(draw);
    if draw.below(20) < 11 {
        return commands.concat();
    }
    if !draw.one_in(4) {
        draw.one_of(&IN_COMMANDS)(draw, &mut commands);
        if draw.one_in(5) {
            draw.one_of(&IN_COMMANDS)(draw, &mut commands);
        }
        if draw.one_in(6) {
            draw.one_of(&IN_BYTES)(draw, &mut commands);
        }
    } else {
        draw.one_of(&IN_BYTES)(draw, &mut commands);
    }
    commands.concat()
}

fn at_the_limit(draw: &mut Draw) -> Vec<u8> {
    let length = draw.between(LONGEST_FILE - 1, LONGEST_FILE + 1);
    match draw.below(4) {
        0 => {
            let mut file = commands(draw).concat();
            file.resize(length, END);
            file
        }
        1 => {
            let mut file = draw.bytes(length);
            file[..4].copy_from_slice(&[GROUP, draw.one_of(&[0, 4, 33]), 1, 1]);
            file
        }
        _ => commands_of_length(draw, length).concat(),
    }
}

fn noise(draw: &mut Draw) -> Vec<u8> {
    let length = draw.below(40);
    let mut file = draw.bytes(length);
    if draw.one_in(2) {
        // small numbers, which are more often commands and columns
        file.iter_mut().for_each(|byte| *byte %= 6);
    }
    if draw.one_in(2) {
        file.splice(0..0, [GROUP, 4, 1, 1, OWN, 1, 7]);
    }
    file
}

fn group_of_other_size(draw: &mut Draw, commands: &mut Commands) {
    let [_, t, w] = settings(commands);
    let t = if draw.one_in(4) { 0 } else { t };
    let n = draw.one_of(&[0, 33, 34, 128, 255]);
    put_settings(commands, [n, t, w]);
}

fn group_with_more_bad(draw: &mut Draw, commands: &mut Commands) {
    let [n, _, w] = settings(commands);
    let one_more = (n.max(1) - 1) / 3 + 1;
    // of the last ones three times the number, and one more, is small in eight bits
    let t = draw.one_of(&[one_more, one_more, 11, 32, 85, 86, 170, 171, 255]);
    put_settings(commands, [n, t, w]);
}

fn group_of_other_values(draw: &mut Draw, commands: &mut Commands) {
    let [n, t, _] = settings(commands);
    let w = draw.one_of(&[0, 0, 9, 9, 16, 128, 255]);
    put_settings(commands, [n, t, w]);
}

fn group_of_edges(draw: &mut Draw, commands: &mut Commands) {
    let n = draw.one_of(&[0, 1, 3, 4, 31, 32, 33]);
    let t = draw.one_of(&[0, 1, 2, 10, 11, 85]);
    let w = draw.one_of(&[0, 1, 8, 9]);
    put_settings(commands, [n, t, w]);
}

/// n, t and w as the group command has them, wherever an earlier fault has put it.
fn settings(commands: &Commands) -> [u8; 3] {
    match commands.iter().find(|command| is_group(command)) {
        Some(group) => [group[1], group[2], group[3]],
        None => [4, 1, 1],
    }
}

fn put_settings(commands: &mut Commands, settings: [u8; 3]) {
    if let Some(group) = commands.iter_mut().find(|command| is_group(command)) {
        group[1..].copy_from_slice(&settings);
    }
}

fn is_group(command: &[u8]) -> bool {
    command[0] == GROUP && command.len() == 4
}

fn own_blank(draw: &mut Draw, commands: &mut Commands) {
    if let Some(at) = any_of(draw, commands, &[OWN]) {
        commands[at][2..].fill(0);
        if draw.one_in(6) {
            commands[at][1] = any_column(draw, commands);
        }
    }
}

fn own_again(draw: &mut Draw, commands: &mut Commands) {
    if let Some(at) = any_of(draw, commands, &[OWN]) {
        let mut again = commands[at].clone();
        if draw.one_in(2) {
            let byte = draw.between(2, again.len() - 1);
            again[byte] = draw.byte();
        }
        let last = commands
            .iter()
            .rposition(|command| command[0] == OWN)
            .unwrap_or(at);
        commands.insert(draw.between(at + 1, last + 1), again);
    }
}

fn other_column(draw: &mut Draw, commands: &mut Commands) {
    let Some(at) = any_of(draw, commands, &[OWN, VALUE, CHECKS]) else {
        return;
    };
    let places: &[usize] = match commands[at][0] {
        OWN => &[1],
        VALUE => &[1, 2],
        _ => &[2, 3],
    };
    commands[at][draw.one_of(places)] = any_column(draw, commands);
}

fn message_again(draw: &mut Draw, commands: &mut Commands) {
    let kind = draw.one_of(&[VALUE, CHECKS]);
    if let Some(at) = any_of(draw, commands, &[kind]) {
        let mut again = commands[at].clone();
        if draw.one_in(2) {
            let last = again.len() - 1;
            again[last] = draw.byte();
        }
        if kind == VALUE && draw.one_in(3) {
            // the first one blank, which is a message all the same
            commands[at][3..].fill(0);
        }
        let last = commands.len() - 1;
        commands.insert(draw.between((at + 1).min(last), last), again);
    }
}

fn any_message(draw: &mut Draw, commands: &mut Commands) {
    let (from, to) = (any_column(draw, commands), any_column(draw, commands));
    let [_, t, w] = settings(commands).map(usize::from);
    let message = if draw.one_in(2) {
        [vec![VALUE, from, to], draw.bytes(w)].concat()
    } else {
        let round = draw.one_of(&[2, 3]);
        [vec![CHECKS, round, from, to], draw.bytes(2 * t * w)].concat()
    };
    let last = commands.len() - 1;
    let first = commands
        .iter()
        .rposition(|command| command[0] == OWN)
        .map_or(1, |at| at + 1);
    commands.insert(draw.between(first.min(last), last), message);
}

fn other_round(draw: &mut Draw, commands: &mut Commands) {
    if let Some(at) = any_of(draw, commands, &[CHECKS]) {
        commands[at][1] = draw.one_of(&[0, 1, 2, 3, 4, 255]);
    }
}

fn other_command(draw: &mut Draw, commands: &mut Commands) {
    let at = draw.below(commands.len());
    commands[at][0] = draw.one_of(&[0, 1, 2, 3, 4, 5, 14, 15, 16, 17, 255]);
}

/// The file stops inside a command whose operand is not allowed.
fn faulty_and_cut(draw: &mut Draw, commands: &mut Commands) {
    let kind = draw.one_of(&[GROUP, OWN, VALUE, CHECKS]);
    if let Some(at) = any_of(draw, commands, &[kind]) {
        commands.truncate(at + 1);
        commands[at][1..].fill(draw.one_of(&[0, 255]));
        let length = commands[at].len();
        commands[at].truncate(draw.between(1, length - 1));
    }
}

fn moved(draw: &mut Draw, commands: &mut Commands) {
    let command = commands.remove(draw.below(commands.len()));
    commands.insert(draw.below(commands.len() + 1), command);
}

fn repeated(draw: &mut Draw, commands: &mut Commands) {
    let command = draw.one_of(commands);
    commands.insert(draw.below(commands.len() + 1), command);
}

fn removed(draw: &mut Draw, commands: &mut Commands) {
    if commands.len() > 1 {
        commands.remove(draw.below(commands.len()));
    }
}

fn cut(draw: &mut Draw, commands: &mut Commands) {
    let mut file = commands.concat();
    let length = if draw.one_in(2) {
        file.len() - draw.between(1, 4).min(file.len())
    } else {
        draw.below(file.len())
    };
    file.truncate(length);
    *commands = vec![file];
}

fn changed_bytes(draw: &mut Draw, commands: &mut Commands) {
    let mut file = commands.concat();
    for _ in 0..draw.between(1, 3) {
        let at = draw.below(file.len());
        file[at] ^= if draw.one_in(2) {
            1 << draw.below(8)
        } else {
            draw.byte()
        };
    }
    *commands = vec![file];
}

fn inserted(draw: &mut Draw, commands: &mut Commands) {
    let mut file = commands.concat();
    file.insert(draw.below(file.len() + 1), draw.byte());
    *commands = vec![file];
}

fn removed_byte(draw: &mut Draw, commands: &mut Commands) {
    let mut file = commands.concat();
    file.remove(draw.below(file.len()));
    *commands = vec![file];
}

fn continued(draw: &mut Draw, commands: &mut Commands) {
    let length = draw.between(1, 5);
    let more = draw.bytes(length);
    commands.push(draw.one_of(&[vec![0], vec![10], vec![END], more]));
}

/// Where a command of these kinds stands, if an earlier fault has not cut it.
fn any_of(draw: &mut Draw, commands: &Commands, kinds: &[u8]) -> Option<usize> {
    let is_kind = |&at: &usize| {
        let command = &commands[at];
        let least = if command[0] == OWN { 3 } else { 4 };
        kinds.contains(&command[0]) && command.len() >= least
    };
    let places: Vec<usize> = (0..commands.len()).filter(is_kind).collect();
    (!places.is_empty()).then(|| draw.one_of(&places))
}

/// A column: of the group, or now and then past it.
fn any_column(draw: &mut Draw, commands: &Commands) -> u8 {
    let [n, _, _] = settings(commands);
    match draw.below(3) {
        0 => draw.one_of(&[0, n.wrapping_add(1), n.wrapping_add(1), 33, 255]),
        _ => draw.between(1, usize::from(n.max(1))) as u8,
    }
}
