//! Groups whose bad columns bring the good ones' levels as far apart as the promise allows.

use crate::chance::Chance;
use crate::group::Group;
use crate::heights::{KINDS, not_blank, own_height};
use crate::splits::{Split, above, below, parted};

/// Two heights, the lower one first: the ends of 32 bits, near ones, or two of any kind.
pub fn any_ends(chance: &mut Chance) -> (i32, i32) {
    let kind = chance.pick(&KINDS);
    let (one, other) = (own_height(chance, kind), own_height(chance, kind));
    match chance.below(3) {
        0 => (i32::MIN, i32::MAX),
        1 => {
            let step = 1 + chance.below(5) as i32;
            (one, not_blank(one.saturating_add(step)))
        }
        _ => (one.min(other), one.max(other)),
    }
}

/// Between the ends, and odd or even as the highest is.
fn between(chance: &mut Chance, lowest: i32, highest: i32) -> i32 {
    let spread = highest.abs_diff(lowest);
    let steps = chance.below(u64::from(spread / 2) + 1) as u32;
    match highest.wrapping_sub_unsigned(2 * steps) {
        0 => highest,
        height => height,
    }
}

/// Good columns at these heights, in any places.
fn group_at(chance: &mut Chance, n: u32, t: u32, heights: &[i32]) -> Group {
    let mut numbers: Vec<u32> = (1..=n).collect();
    chance.shuffle(&mut numbers);
    let good: Vec<(u32, i32)> = numbers.into_iter().zip(heights.iter().copied()).collect();
    Group::open(n, t, chance.word() as u16, &good)
}

/// How many of the bad columns plot above the good heights and how many below, and how many more the group would bear.
struct Sides {
    above: usize,
    below: usize,
    spare: usize,
}

fn any_sides(chance: &mut Chance, t: u32) -> Sides {
    let bad = 1 + chance.below(t.into()) as usize;
    let above = 1 + chance.below(bad as u64) as usize;
    Sides {
        above,
        below: bad - above,
        spare: t as usize - bad,
    }
}

/// Who believes the plots above and none below drops `spare` of the highest good heights, and `above` more of the lowest; who believes
/// those below drops `spare` of the lowest, and `below` more of the highest. So one halves the middle and the highest, the other the lowest
/// and the middle. The middle is as odd as the highest, and only the lower half is rounded down.
pub fn widest(chance: &mut Chance, n: u32, t: u32) -> (Group, Vec<Split>) {
    let (lowest, highest) = any_ends(chance);
    let sides = any_sides(chance, t);
    let more =
        |chance: &mut Chance, side: usize| sides.spare + 1 + chance.below(side as u64) as usize;
    let lows = more(chance, sides.above);
    let (middle, highs) = match sides.below {
        0 => (highest, 0),
        side => (between(chance, lowest, highest), more(chance, side)),
    };
    let mut heights = vec![middle; n as usize - sides.above - sides.below];
    heights[..lows].fill(lowest);
    heights[lows..lows + highs].fill(highest);
    let group = group_at(chance, n, t, &heights);
    let count = 1 + chance.below(heights.len() as u64 - 1) as usize;
    let (risen, sunk) = parted(chance, group.numbers(), count);
    let split = |(k, number)| {
        if k < sides.above {
            let plot = above(chance, highest);
            group.split(chance, number, plot, &risen, 1)
        } else {
            let plot = below(chance, lowest);
            group.split(chance, number, plot, &sunk, 1)
        }
    };
    let splits = group.bad().into_iter().enumerate().map(split).collect();
    (group, splits)
}

/// How many stand apart: too many to be dropped by who believes no plot, and not too many for who believes all of them.
fn any_few(chance: &mut Chance, t: u32, bad: usize) -> usize {
    t as usize - bad + 1 + chance.below(bad as u64) as usize
}

/// Good columns at two heights that can be kept apart, few of them at the lower one.
pub fn at_two_heights(chance: &mut Chance, n: u32, t: u32, (lowest, highest): (i32, i32)) -> Group {
    let bad = 1 + chance.below(t.into()) as usize;
    let mut heights = vec![highest; n as usize - bad];
    let few = any_few(chance, t, bad);
    heights[..few].fill(lowest);
    group_at(chance, n, t, &heights)
}

/// Keeps the good columns at two heights, few of them at one. Who believes that all bad columns stand at the other one or past it drops the
/// few, and levels there; the others level half way. An odd spread is halved and rounded up only if the few are the low ones.
pub fn kept_apart(chance: &mut Chance, group: &Group) -> Vec<Split> {
    let (lowest, highest) = group.ends();
    let lows = group.heights.iter().filter(|&&height| height == lowest);
    let few_are_low = lows.count() <= group.t as usize;
    let next_is_odd = highest.abs_diff(lowest).div_ceil(2) % 2 == 1;
    let few_stay_low = next_is_odd || chance.one_in(2);
    let bad = group.bad();
    let count = any_few(chance, group.t, bad.len());
    let (few, many) = parted(chance, group.numbers(), count);
    let believers = if few_are_low == few_stay_low {
        many
    } else {
        few
    };
    let split = |number| {
        let plot = if few_are_low {
            above(chance, highest)
        } else {
            below(chance, lowest)
        };
        group.split(chance, number, plot, &believers, 1)
    };
    bad.into_iter().map(split).collect()
}
