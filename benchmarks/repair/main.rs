//! Repair and check values by three programs on the same inputs: first whether they answer alike, then how long they take (timing.rs).

#[path = "../../rust/src/archive.rs"]
mod archive;
mod cases;
#[path = "../../models/chance.rs"]
mod chance;
#[path = "../clock.rs"]
mod clock;
#[path = "../../models/libfec.rs"]
mod libfec;
#[path = "../../models/linear.rs"]
mod linear;
#[path = "../../models/register.rs"]
mod register;
mod timing;

use cases::{Input, REPAIRS, WHOLE};
use chance::Chance;
use clock::warm_up;
use timing::{Answer, IN_A_ROW, Program, ROUNDS, assert_alike, print_table};

const RANDOM: usize = 40_000;

fn library_repair(i: &Input, output: &mut [u8]) -> Answer {
    let (n, t, w) = (i.n as u32, i.t as u32, i.w as u32);
    let repaired = archive::repair(n, t, w, &i.vector, &i.checks, output);
    (repaired.answer, repaired.changed, repaired.tried)
}

fn equations_repair(i: &Input, output: &mut [u8]) -> Answer {
    let (n, t, w) = (i.n as u32, i.t as u32, i.w as u32);
    linear::repair(n, t, w, &i.vector, &i.checks, output)
}

fn library_checks(i: &Input, output: &mut [u8]) -> Answer {
    let (n, t, w) = (i.n as u32, i.t as u32, i.w as u32);
    let answer = archive::check_values(n, t, w, &i.vector, output);
    (answer, 0, [0; 8])
}

fn register_checks(i: &Input, output: &mut [u8]) -> Answer {
    let answer = register::check_values(i.n, i.t, i.w, &i.vector, output);
    (answer, 0, [0; 8])
}

fn program<'a>(name: &'static str, run: &'a dyn Fn(&Input, &mut [u8]) -> Answer) -> Program<'a> {
    Program { name, run }
}

/// Asserts that all programs answer random inputs alike, and says how many of them there were.
fn compare(repairs: &[Program], encoders: &[Program], chance: &mut Chance) {
    let mut repaired = 0;
    for _ in 0..RANDOM {
        let input = Input::random(chance);
        assert_alike(encoders, &input);
        let (answer, _, _) = assert_alike(repairs, &input);
        repaired += usize::from(answer == 0);
    }
    println!(
        "{RANDOM} random inputs, all n, t, w, 0 to t + 3 wrong places in a plane: answered alike, with as many places tried in each plane, {repaired} repaired with as many places changed, the others none"
    );
    println!();
}

fn main() {
    warm_up();
    let coders = libfec::Coders::new();
    let libfec_repair =
        |i: &Input, output: &mut [u8]| coders.repair(i.n, i.t, i.w, &i.vector, &i.checks, output);
    let libfec_checks = |i: &Input, output: &mut [u8]| {
        let checks = coders.checks(i.n, i.t, i.w, &i.vector);
        output[..checks.len()].copy_from_slice(&checks);
        (0, 0, [0; 8])
    };
    let repairs = [
        program("this library", &library_repair),
        program("linear equations", &equations_repair),
        program("libfec", &libfec_repair),
    ];
    let encoders = [
        program("this library", &library_checks),
        program("register", &register_checks),
        program("libfec", &libfec_checks),
    ];
    let mut chance = Chance::new(1);
    compare(&repairs, &encoders, &mut chance);
    println!(
        "Microseconds a call, medians of {ROUNDS} rounds of {IN_A_ROW} calls each, buffers not cleared. Repair:"
    );
    println!();
    print_table(&repairs, &REPAIRS, 1, &mut chance);
    println!("Check values:");
    println!();
    print_table(&encoders, &WHOLE, 1, &mut chance);
}
