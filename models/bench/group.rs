//! A bench file read into the group that it describes, or the number that it is refused with.

use crate::remainders::Value;
use std::collections::BTreeMap;

pub const LONGEST_FILE: usize = 65_536;

pub const GROUP: u8 = 1;
pub const VALUE: u8 = 2;
pub const CHECKS: u8 = 3;
pub const OWN: u8 = 4;
pub const END: u8 = 15;

const BAD_FORM: u32 = 19;
const BAD_OPERAND: u32 = 20;
const BLANK_OWN_VALUE: u32 = 6;

/// What a bad column sends to a good one: round, from, to. Round one carries a value, the others 2t check values.
pub type Message = (u8, usize, usize);

#[derive(Clone)]
pub struct Group {
    pub n: usize,
    pub t: usize,
    pub w: usize,
    /// The own values of the good columns; whoever has none is bad.
    pub own: BTreeMap<usize, Value>,
    pub sent: BTreeMap<Message, Vec<Value>>,
}

pub fn read(file: &[u8]) -> Result<Group, u32> {
    if file.len() > LONGEST_FILE {
        return Err(BAD_FORM);
    }
    let mut rest = file;
    let mut group = match command(&mut rest)? {
        GROUP => read_group(operand(&mut rest, 3)?)?,
        _ => return Err(BAD_FORM),
    };
    let mut messages_begun = false;
    loop {
        match command(&mut rest)? {
            OWN if !messages_begun => group.add_own(operand(&mut rest, 1 + group.w)?)?,
            VALUE => {
                let operand = operand(&mut rest, 2 + group.w)?;
                group.add_message(1, &operand[..2], &operand[2..])?;
                messages_begun = true;
            }
            CHECKS => {
                let operand = operand(&mut rest, 3 + 2 * group.t * group.w)?;
                if operand[0] != 2 && operand[0] != 3 {
                    return Err(BAD_OPERAND);
                }
                group.add_message(operand[0], &operand[1..3], &operand[3..])?;
                messages_begun = true;
            }
            END if rest.is_empty() => return Ok(group),
            _ => return Err(BAD_FORM),
        }
    }
}

fn command(rest: &mut &[u8]) -> Result<u8, u32> {
    operand(rest, 1).map(|bytes| bytes[0])
}

fn operand<'a>(rest: &mut &'a [u8], length: usize) -> Result<&'a [u8], u32> {
    rest.split_off(..length).ok_or(BAD_FORM)
}

fn read_group(operand: &[u8]) -> Result<Group, u32> {
    let [n, t, w] = [0, 1, 2].map(|i| usize::from(operand[i]));
    if !(1..=32).contains(&n) {
        return Err(1);
    }
    if n < 3 * t + 1 {
        return Err(2);
    }
    if !(1..=8).contains(&w) {
        return Err(3);
    }
    Ok(Group {
        n,
        t,
        w,
        own: BTreeMap::new(),
        sent: BTreeMap::new(),
    })
}

impl Group {
    pub fn is_good(&self, column: usize) -> bool {
        self.own.contains_key(&column)
    }

    fn has(&self, column: usize) -> bool {
        (1..=self.n).contains(&column)
    }

    fn add_own(&mut self, operand: &[u8]) -> Result<(), u32> {
        let (column, value) = (usize::from(operand[0]), &operand[1..]);
        if !self.has(column) || self.is_good(column) {
            return Err(BAD_OPERAND);
        }
        if value.iter().all(|&byte| byte == 0) {
            return Err(BLANK_OWN_VALUE);
        }
        self.own.insert(column, value.to_vec());
        Ok(())
    }

    fn add_message(&mut self, round: u8, ends: &[u8], bytes: &[u8]) -> Result<(), u32> {
        let (from, to) = (usize::from(ends[0]), usize::from(ends[1]));
        if !self.has(from) || !self.has(to) || self.is_good(from) || !self.is_good(to) {
            return Err(BAD_OPERAND);
        }
        let values = bytes.chunks(self.w).map(<[u8]>::to_vec).collect();
        match self.sent.insert((round, from, to), values) {
            None => Ok(()),
            Some(_) => Err(BAD_OPERAND),
        }
    }
}
