//! Random bench files without a fault: groups of all settings, with bad columns that try to part the good ones.

use crate::draw::Draw;
use crate::exchange::{OfGood, Vector, agreed, heard};
use crate::group::{CHECKS, END, GROUP, Group, OWN, VALUE};
use crate::remainders::{Coder, Value};
use std::collections::BTreeMap;

/// A file as its commands, so that a fault can be put into one of them.
pub type Commands = Vec<Vec<u8>>;

/// What a bad column does in a round, to all good ones alike or drawn anew for each.
#[derive(Clone, Copy)]
enum Lie {
    Silence,
    /// In round one the first value, in the others the checks of the reader's own vector: no lie that can be seen.
    Agree,
    /// Either of two values; checks of the reader's vector with either of two values for each bad column.
    Part,
    /// Blank; checks of zeros.
    Blank,
    /// Checks of another good column's vector.
    Repeat,
    /// The reader's vector with up to t + 2 values changed, or its checks with up to t + 2 bytes changed in each plane.
    Err,
    Noise,
}

const LIES: [Lie; 7] = [
    Lie::Silence,
    Lie::Agree,
    Lie::Part,
    Lie::Blank,
    Lie::Repeat,
    Lie::Err,
    Lie::Noise,
];

pub fn commands(draw: &mut Draw) -> Commands {
    let group = group(draw);
    let mut messages = messages(&group);
    if !draw.one_in(4) {
        draw.shuffle(&mut messages);
    }
    let mut owned = owned(&group);
    if draw.one_in(2) {
        draw.shuffle(&mut owned);
    }
    [opening(&group), owned, messages, vec![vec![END]]].concat()
}

/// A whole file of this many bytes: the largest settings, half of the columns bad, and as many messages as that takes.
pub fn commands_of_length(draw: &mut Draw, length: usize) -> Commands {
    let mut group = silent(draw, 32, 10, 8, 16);
    speak(
        &mut group,
        draw,
        &[Lie::Part, Lie::Err, Lie::Agree, Lie::Noise],
    );
    let (mut checks, mut values): (Commands, Commands) = messages(&group)
        .into_iter()
        .partition(|message| message[0] == CHECKS);
    draw.shuffle(&mut checks);
    draw.shuffle(&mut values);
    let fixed = [opening(&group), owned(&group)].concat();
    let left = length - fixed.concat().len() - 1;
    let fits = |&count: &usize| {
        let left = left.checked_sub(count * checks[0].len());
        left.is_some_and(|left| {
            left % values[0].len() == 0 && left / values[0].len() <= values.len()
        })
    };
    let count = (0..=checks.len())
        .find(fits)
        .expect("messages for this length");
    values.truncate((left - count * checks[0].len()) / values[0].len());
    checks.truncate(count);
    [fixed, checks, values, vec![vec![END]]].concat()
}

fn opening(group: &Group) -> Commands {
    vec![vec![GROUP, group.n as u8, group.t as u8, group.w as u8]]
}

fn owned(group: &Group) -> Commands {
    let command = |(&column, value): (&usize, &Value)| [&[OWN, column as u8], &value[..]].concat();
    group.own.iter().map(command).collect()
}

fn messages(group: &Group) -> Commands {
    let command = |(&(round, from, to), values): (&(u8, usize, usize), &Vec<Value>)| {
        let ends = [from as u8, to as u8];
        let head = if round == 1 {
            vec![VALUE]
        } else {
            vec![CHECKS, round]
        };
        [head, ends.to_vec(), values.concat()].concat()
    };
    group.sent.iter().map(command).collect()
}

fn group(draw: &mut Draw) -> Group {
    let n = if draw.one_in(3) {
        draw.between(1, 32)
    } else {
        draw.between(3, 13)
    };
    let most = (n - 1) / 3;
    let t = if draw.one_in(3) {
        draw.between(0, most)
    } else {
        most
    };
    let w = if draw.one_in(3) {
        1
    } else {
        draw.between(1, 8)
    };
    let bad = match draw.below(8) {
        0 => draw.between(0, n),
        1 => draw.between(t + 1, n),
        2 => draw.between(0, t),
        _ => t,
    };
    let mut group = silent(draw, n, t, w, bad);
    let lies: Vec<Lie> = match draw.below(3) {
        0 => LIES.to_vec(),
        1 => vec![Lie::Part, draw.one_of(&LIES)],
        _ => vec![Lie::Part],
    };
    speak(&mut group, draw, &lies);
    group
}

/// A group whose bad columns send nothing.
fn silent(draw: &mut Draw, n: usize, t: usize, w: usize, bad: usize) -> Group {
    let mut columns: Vec<usize> = (1..=n).collect();
    draw.shuffle(&mut columns);
    let few = [value(draw, w), value(draw, w)];
    let mut own = BTreeMap::new();
    for &column in &columns[bad..] {
        let drawn = if draw.one_in(4) {
            draw.one_of(&few)
        } else {
            value(draw, w)
        };
        own.insert(column, drawn);
    }
    let sent = BTreeMap::new();
    Group { n, t, w, own, sent }
}

/// A value that is not blank, now and then of a single byte that is not 0, or equal to many others.
fn value(draw: &mut Draw, w: usize) -> Value {
    let mut value = match draw.below(3) {
        0 => vec![0; w],
        1 => vec![7; w],
        _ => draw.bytes(w),
    };
    value[draw.below(w)] = draw.between(1, 255) as u8;
    value
}

fn bad_columns(group: &Group) -> Vec<usize> {
    (1..=group.n)
        .filter(|&column| !group.is_good(column))
        .collect()
}

/// Lets the bad columns send, round by round: what they lie about is known only after the round before.
fn speak(group: &mut Group, draw: &mut Draw, lies: &[Lie]) {
    let liars = Liars {
        lies,
        choices: bad_columns(group)
            .into_iter()
            .map(|bad| (bad, [value(draw, group.w), value(draw, group.w)]))
            .collect(),
        coder: Coder::new(group.n, 2 * group.t),
    };
    liars.say_values(group, draw);
    let vectors = heard(group);
    liars.say_checks(group, draw, 2, &vectors);
    let vectors = agreed(group, &liars.coder, &vectors);
    liars.say_checks(group, draw, 3, &vectors);
}

/// The bad columns of a group, two values for each of them, and what they do.
struct Liars<'a> {
    lies: &'a [Lie],
    choices: BTreeMap<usize, [Value; 2]>,
    coder: Coder,
}

impl Liars<'_> {
    fn say_values(&self, group: &mut Group, draw: &mut Draw) {
        let mut readers: Vec<usize> = group.own.keys().copied().collect();
        for (&from, [first, second]) in &self.choices {
            let for_all = draw.one_in(2).then(|| draw.one_of(self.lies));
            // about as many readers get the second value as brings a count to one of its thresholds
            let few = draw.between(0, group.t + 1);
            let seconds = draw.one_of(&[few, few, 2 * group.t, 2 * group.t + 1, group.n / 2]);
            draw.shuffle(&mut readers);
            for (place, &to) in readers.iter().enumerate() {
                let value = match for_all.unwrap_or_else(|| draw.one_of(self.lies)) {
                    Lie::Silence => continue,
                    Lie::Part if place < seconds => second.clone(),
                    Lie::Part | Lie::Agree | Lie::Repeat => first.clone(),
                    Lie::Blank => vec![0; group.w],
                    Lie::Err | Lie::Noise => draw.bytes(group.w),
                };
                group.sent.insert((1, from, to), vec![value]);
            }
        }
    }

    /// The checks of a round, where the good columns hold these vectors.
    fn say_checks(&self, group: &mut Group, draw: &mut Draw, round: u8, vectors: &OfGood<Vector>) {
        let held: Vec<&[Value]> = vectors.values().map(Vec::as_slice).collect();
        for &from in self.choices.keys() {
            let for_all = draw.one_in(2).then(|| draw.one_of(self.lies));
            for (&to, own) in vectors {
                let checks = match for_all.unwrap_or_else(|| draw.one_of(self.lies)) {
                    Lie::Silence => continue,
                    Lie::Agree => self.coder.checks(own),
                    Lie::Part => self.coder.checks(&self.parting(group, draw, own)),
                    Lie::Blank => vec![vec![0; group.w]; 2 * group.t],
                    Lie::Repeat => self.coder.checks(draw.one_of(&held)),
                    Lie::Err => erring(group, draw, &self.coder, own),
                    Lie::Noise => (0..2 * group.t).map(|_| draw.bytes(group.w)).collect(),
                };
                group.sent.insert((round, from, to), checks);
            }
        }
    }

    /// The reader's vector, but for the bad columns their first values, their second ones, blanks, or a mixture: in at
    /// most t places, so that it is repaired to.
    fn parting(&self, group: &Group, draw: &mut Draw, own: &[Value]) -> Vector {
        let mut vector = own.to_vec();
        let mut places = group.t;
        let for_all = draw.below(6);
        for (&bad, [first, second]) in &self.choices {
            let said = match if for_all < 5 { for_all } else { draw.below(5) } {
                0 | 1 => first.clone(),
                2 => second.clone(),
                3 => vec![0; group.w],
                _ => continue,
            };
            if places > 0 && said != vector[bad - 1] {
                vector[bad - 1] = said;
                places -= 1;
            }
        }
        vector
    }
}

fn erring(group: &Group, draw: &mut Draw, coder: &Coder, own: &[Value]) -> Vec<Value> {
    let mut vector = own.to_vec();
    let in_values = draw.below(group.t + 3);
    for _ in 0..in_values {
        vector[draw.below(group.n)] = draw.bytes(group.w);
    }
    let mut checks = coder.checks(&vector);
    if group.t > 0 && draw.one_in(2) {
        for p in 0..group.w {
            for _ in 0..draw.below((group.t + 3).saturating_sub(in_values).max(1)) {
                checks[draw.below(2 * group.t)][p] ^= draw.byte();
            }
        }
    }
    checks
}
