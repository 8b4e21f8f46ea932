//! Whole groups in random schedules: columns at their own pace, frames lost, repeated, early, late, foreign and damaged, and liars that
//! split the group. Each column is driven beside a model of it, and both are compared at every step; and the counts of refused frames with
//! the list of what was handed in and answered. Where at most t columns are bad and every good frame is handed in its round or in the one
//! before, the three promises about what good columns believe are asserted too, and that what they tell of good senders is at most the
//! count of bad columns.

#[path = "../../rust/src/archive.rs"]
mod archive;
#[path = "../../models/chance.rs"]
mod chance;
#[path = "../../models/division.rs"]
mod division;
#[path = "../../models/exchange.rs"]
mod exchange;
#[path = "../../models/frames.rs"]
mod frames;
mod group;
mod handing;
#[path = "../../models/linear.rs"]
mod linear;
mod pair;
#[path = "../../models/refusals.rs"]
mod refusals;

use chance::Chance;
use exchange::{Model, Told};
use group::{Group, group};

/// What finished columns tell, by which it is seen that the schedules reach all of it.
#[derive(Default)]
struct Tellings {
    missing: u64,
    none: u64,
    changed: u64,
    above_t: u64,
    otherwise: u64,
}

impl Tellings {
    fn add(&mut self, column: &Model) {
        for told in column.told_two.iter().chain(&column.told_three) {
            match *told {
                Told::Missing => self.missing += 1,
                Told::None => self.none += 1,
                Told::Changed(places) => {
                    self.changed += u64::from(places > 0);
                    self.above_t += u64::from(places > column.t);
                }
            }
        }
        self.otherwise += u64::from(column.told_two != column.told_three);
    }

    fn print(&self) {
        let Tellings {
            missing,
            none,
            changed,
            above_t,
            otherwise,
        } = self;
        println!(
            "schedules: told are {missing} missing frames, {none} times none, {changed} numbers above 0, {above_t} of these above t; of \
             {otherwise} columns round three tells something else than round two"
        );
    }
}

/// How far the schedules reach: what the columns were handed, and the promises where their conditions are met.
#[derive(Default)]
struct Reached {
    groups: u64,
    handed: usize,
    early: usize,
    refused: u64,
    beside: u64,
    most: u32,
    promised: u64,
    only_early: u64,
    beliefs: u64,
    apart: u64,
    numbers: u64,
    highest: u64,
    tellings: Tellings,
}

impl Reached {
    fn add(&mut self, group: &Group) {
        self.groups += 1;
        for pair in &group.good {
            self.handed += pair.handed.len();
            self.early += pair.taken_early();
            self.refused += pair.answered(9..=15);
            self.beside += pair.answered(8..=8);
            let most = pair.column.refused.into_iter().max().unwrap();
            self.most = self.most.max(most);
            self.tellings.add(&pair.model);
        }
        let in_time = group.is_in_time(1);
        assert!(in_time || !group.reliable, "a reliable group");
        if in_time && group.bad.len() <= group.t as usize {
            self.promises(group);
        }
    }

    fn promises(&mut self, group: &Group) {
        let (compared, differing) = group.promises();
        self.promised += 1;
        self.beliefs += compared;
        self.apart += differing;
        self.only_early += u64::from(!group.is_in_time(0));
        let (told, equal) = group.told_of_good();
        self.numbers += told;
        self.highest += equal;
    }

    fn print(&self) {
        let Reached {
            groups,
            handed,
            early,
            refused,
            beside,
            most,
            promised,
            only_early,
            beliefs,
            apart,
            numbers,
            highest,
            tellings,
        } = self;
        println!(
            "schedules: {groups} groups and {handed} frames as the model says, {early} of them taken early"
        );
        println!(
            "schedules: {refused} frames are refused 9 to 15 and counted as promised, by slot and in all, up to {most} in a slot, and \
             {beside} refused 8 and not counted"
        );
        println!(
            "schedules: the promises hold in {promised} of the groups, in {only_early} of them only through early frames, for {beliefs} \
             pairs of beliefs, {apart} of these one confidence apart, and for {numbers} numbers told of good senders, {highest} of these \
             the count of bad columns"
        );
        tellings.print();
    }
}

/// n, t, w, and how many groups.
const SETTINGS: [(u32, u32, u32, u32); 9] = [
    (4, 1, 1, 1500),
    (4, 1, 4, 1500),
    (5, 1, 2, 600),
    (7, 2, 3, 600),
    (10, 3, 1, 200),
    (1, 0, 8, 50),
    (3, 0, 4, 200),
    (31, 10, 8, 1),
    (32, 10, 1, 3),
];

fn main() {
    let mut chance = Chance::new(2);
    let mut reached = Reached::default();
    for (n, t, w, count) in SETTINGS {
        for _ in 0..count {
            let mut group = group(&mut chance, n, t, w);
            while let Some(k) = group.next_reader(&mut chance) {
                group.turn(&mut chance, k);
            }
            reached.add(&group);
        }
    }
    reached.print();
}
