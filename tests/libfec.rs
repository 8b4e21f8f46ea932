//! Check values and repair of the compiled library beside libfec, set to this field and these roots: random settings and vectors, none to
//! t + 3 wrong places in each plane, the same in every plane or others in each, as many or not, in a quarter of the inputs in the checks
//! alone. Compared are answers, lent bytes, how many places repair changed with how many libfec says it corrected, and how many it tried in
//! each plane with the last in which libfec's word differs. The first difference ends the run.

#[path = "../rust/src/archive.rs"]
mod archive;
#[path = "../models/chance.rs"]
mod chance;
#[path = "../models/libfec.rs"]
mod libfec;

use chance::Chance;

const INPUTS: u32 = 40_000;
/// The answer "none" of both.
const NONE: u32 = 256;

struct Input {
    n: usize,
    t: usize,
    w: usize,
    vector: Vec<u8>,
    checks: Vec<u8>,
}

fn same<T: PartialEq + std::fmt::Debug>(what: &str, input: &Input, ours: T, theirs: T) {
    if ours != theirs {
        let Input {
            n,
            t,
            w,
            vector,
            checks,
        } = input;
        eprintln!("libfec: {what}: the library has {ours:?}, libfec {theirs:?}");
        eprintln!("n {n}, t {t}, w {w}, vector {vector:?}, checks {checks:?}");
        std::process::exit(1);
    }
}

/// So many of the places from the first one on, or all where there are fewer: the columns, then the checks.
fn some_places(input: &Input, first: usize, count: usize, chance: &mut Chance) -> Vec<usize> {
    let mut places: Vec<usize> = (first..input.n + 2 * input.t).collect();
    for k in (1..places.len()).rev() {
        places.swap(k, chance.below(k as u64 + 1) as usize);
    }
    places.truncate(count);
    places
}

fn spoil(input: &mut Input, plane: usize, places: &[usize], chance: &mut Chance) {
    for place in places {
        let byte = match place.checked_sub(input.n) {
            None => &mut input.vector[place * input.w + plane],
            Some(check) => &mut input.checks[check * input.w + plane],
        };
        *byte ^= 1 + chance.below(255) as u8;
    }
}

fn input(coders: &libfec::Coders, chance: &mut Chance) -> Input {
    let n = 1 + chance.below(32) as usize;
    let t = chance.below((n as u64 - 1) / 3 + 1) as usize;
    let w = 1 + chance.below(8) as usize;
    let mut vector = vec![0; n * w];
    chance.fill(&mut vector);
    let (settings, mut checks) = ((n as u32, t as u32, w as u32), vec![0xa5; 2 * t * w]);
    let answer = archive::check_values(settings.0, settings.1, settings.2, &vector, &mut checks);
    let theirs = coders.checks(n, t, w, &vector);
    let mut input = Input {
        n,
        t,
        w,
        vector,
        checks,
    };
    same(
        "check values",
        &input,
        (answer, &input.checks),
        (0, &theirs),
    );
    let first = if chance.one_in(4) { n } else { 0 };
    let mut wrong = chance.below(t as u64 + 4) as usize;
    let same_in_all = chance.one_in(2);
    let as_many = same_in_all || chance.one_in(2);
    let mut places = some_places(&input, first, wrong, chance);
    for plane in 0..w {
        if !as_many {
            wrong = chance.below(t as u64 + 4) as usize;
        }
        if !same_in_all {
            places = some_places(&input, first, wrong, chance);
        }
        spoil(&mut input, plane, &places, chance);
    }
    if chance.one_in(16) {
        chance.fill(&mut input.checks);
    }
    input
}

fn main() {
    let (coders, mut chance) = (libfec::Coders::new(), Chance::new(3));
    let (mut none, mut unchanged, mut to_t, mut above_t) = (0, 0, 0, 0);
    let (mut apart, mut none_apart) = (0, 0);
    for _ in 0..INPUTS {
        let input = input(&coders, &mut chance);
        let Input {
            n,
            t,
            w,
            ref vector,
            ref checks,
        } = input;
        let (mut ours, mut theirs) = ([0xa5; 300], [0xa5; 300]);
        let room = n * w + chance.below(20) as usize;
        let (n_, t_, w_) = (n as u32, t as u32, w as u32);
        let archive::Repaired {
            answer,
            changed,
            tried,
        } = archive::repair(n_, t_, w_, vector, checks, &mut ours[..room]);
        let (their_answer, corrected, last) =
            coders.repair(n, t, w, vector, checks, &mut theirs[..room]);
        same("repair", &input, (answer, ours), (their_answer, theirs));
        same("the places changed", &input, changed, corrected);
        same("the places tried", &input, tried, last);
        let differ = tried[..w].iter().any(|places| *places != tried[0]);
        apart += u32::from(differ);
        none_apart += u32::from(differ && answer == NONE);
        match changed {
            _ if answer == NONE => none += 1,
            0 => unchanged += 1,
            _ if changed <= t_ => to_t += 1,
            _ => above_t += 1,
        }
    }
    assert!(apart > INPUTS / 8 && none_apart > INPUTS / 16);
    println!(
        "libfec: {INPUTS} vectors have the same check values and are repaired alike: {none} as none, {unchanged} with no place changed, \
         {to_t} with 1 to t, {above_t} with more than t over their planes; {apart} tried up to another place in one plane than in another, \
         {none_apart} of these as none"
    );
}
