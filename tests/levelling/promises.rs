//! Ask 4's promises about one exchange, worked out in whole numbers from the heights that the good columns were opened with.

use crate::archive::{self, Column, Level};
use crate::group::Group;
use crate::shown::shown_record;

/// Half of a spread, rounded up.
pub fn half(spread: i64) -> i64 {
    (spread + 1) / 2
}

/// From the lowest to the highest.
pub fn spread(heights: &[i64]) -> i64 {
    heights.iter().max().unwrap() - heights.iter().min().unwrap()
}

/// Ends the run with the whole case.
pub fn fail(group: &Group, what: &str) -> ! {
    let Group { run, heights, .. } = group;
    let line = |column: &Column| {
        let Level { answer, level, .. } = archive::level(column);
        format!(
            "\n  answer {answer}, level {level}: {}",
            shown_record(column)
        )
    };
    let columns: String = group.good.iter().map(line).collect();
    panic!("{what}; run {run}, good heights {heights:?}, the good columns:{columns}");
}

/// The good columns' levels: none refused, each between the lowest and the highest good height.
fn levels_among_good_heights(group: &Group) -> Vec<i64> {
    let (lowest, highest) = group.bounds();
    let level = |column: &Column| {
        let Level { answer, level, .. } = archive::level(column);
        if answer != 0 {
            fail(group, &format!("refused {answer}"));
        }
        if !(lowest..=highest).contains(&level) {
            fail(
                group,
                &format!("level {level} is not in {lowest}..={highest}"),
            );
        }
        level
    };
    group.good.iter().map(level).collect()
}

/// The good columns' levels, which keep both promises.
pub fn promised_levels(group: &Group) -> Vec<i64> {
    let levels = levels_among_good_heights(group);
    let (lowest, highest) = group.bounds();
    let most = half(highest - lowest);
    for (k, one) in levels.iter().enumerate() {
        for other in &levels[..k] {
            if (one - other).abs() > most {
                fail(
                    group,
                    &format!("levels {one} and {other} are more than {most} apart"),
                );
            }
        }
    }
    levels
}
