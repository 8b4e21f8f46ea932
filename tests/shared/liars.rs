//! Groups of random heights, and bad columns that lie at random.

use crate::archive::Column;
use crate::chance::Chance;
use crate::group::{Group, Told, checks};
use crate::heights::{KINDS, own_height};

/// A bad column that is not just silent. Its plot is the same height for all readers.
pub struct Liar {
    number: u32,
    plot: [u8; 4],
}

/// What a liar does to one reader in one round. An echo is what a good column sends.
#[derive(Clone, Copy)]
enum Lie {
    Silence,
    Plot,
    Blank,
    Noise,
    Echo,
}

/// Plots are the most, for few others come near to being believed.
const LIES: [Lie; 8] = [
    Lie::Plot,
    Lie::Plot,
    Lie::Plot,
    Lie::Plot,
    Lie::Silence,
    Lie::Blank,
    Lie::Noise,
    Lie::Echo,
];

/// A group of random heights with its liars, of whom `most_bad` draws a bound. Who is neither good nor a liar is silent.
pub fn group(
    chance: &mut Chance,
    n: u32,
    t: u32,
    run: u16,
    most_bad: impl FnOnce(&mut Chance) -> u32,
) -> (Group, Vec<Liar>) {
    let kind = chance.pick(&KINDS);
    let mut numbers: Vec<u32> = (1..=n).collect();
    chance.shuffle(&mut numbers);
    let most = most_bad(chance);
    let fewer = chance.below(u64::from(most) + 1) as u32;
    let bad = chance.pick(&[most, fewer]);
    let mut liars = numbers.split_off((n - bad) as usize);
    liars.retain(|_| !chance.one_in(4));
    let good: Vec<(u32, i32)> = numbers
        .into_iter()
        .map(|number| (number, own_height(chance, kind)))
        .collect();
    let liar = |number| {
        let kind = chance.pick(&[kind, KINDS[0], KINDS[1]]);
        let plot = own_height(chance, kind).to_be_bytes();
        Liar { number, plot }
    };
    let liars = liars.into_iter().map(liar).collect();
    (Group::open(n, t, run, &good), liars)
}

/// A liar's operand: a value, or the checks of the reader's own vector with something else in the liars' places.
fn operand(
    chance: &mut Chance,
    lie: Lie,
    liars: &[Liar],
    plot: &[u8; 4],
    reader: &Column,
    good: &[Vec<u8>],
) -> Option<Vec<u8>> {
    let in_one = reader.round == 1;
    match lie {
        Lie::Silence => None,
        Lie::Plot if in_one => Some(plot.to_vec()),
        Lie::Blank if in_one => Some(vec![0; 4]),
        Lie::Plot => {
            let plots = liars.iter().map(|liar| (liar.number, liar.plot));
            Some(checks(reader, plots))
        }
        Lie::Blank => {
            let blanks = liars.iter().map(|liar| (liar.number, [0; 4]));
            Some(checks(reader, blanks))
        }
        Lie::Noise => {
            let mut noise = good[0][4..].to_vec();
            chance.fill(&mut noise);
            Some(noise)
        }
        Lie::Echo => {
            let echoed = chance.below(good.len() as u64) as usize;
            Some(good[echoed][4..].to_vec())
        }
    }
}

/// What the liars tell a reader. They mostly do the same, for one alone brings little about.
pub fn lies(chance: &mut Chance, liars: &[Liar], reader: &Column, good: &[Vec<u8>]) -> Told {
    let common = chance.pick(&LIES);
    let mut told = vec![];
    for Liar { number, plot } in liars {
        let other = chance.pick(&LIES);
        let lie = chance.pick(&[common, common, common, other]);
        if let Some(operand) = operand(chance, lie, liars, plot, reader, good) {
            told.push((*number, operand));
        }
    }
    told
}
