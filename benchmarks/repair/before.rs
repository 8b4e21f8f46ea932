//! Repair as an older archive has it beside this one's: first whether both answer alike, then how long they take (timing.rs). The places
//! tried, which an archive from before Ask 5 of the change requests does not tell, are left out.

#[path = "../../rust/src/archive.rs"]
mod archive;
mod cases;
#[path = "../../models/chance.rs"]
mod chance;
#[path = "../clock.rs"]
mod clock;
#[path = "../../models/linear.rs"]
mod linear;
#[path = "../../models/register.rs"]
mod register;
mod timing;

use cases::{Input, REPAIRS};
use chance::Chance;
use clock::warm_up;
use timing::{IN_A_ROW, Program, ROUNDS, assert_alike, print_table};

const RANDOM: usize = 40_000;

/// What repair answered from Ask 2 on. What a later archive has behind it comes back in a register of its own.
#[repr(C)]
struct Before {
    answer: u32,
    changed: u32,
}

unsafe extern "C" {
    fn before_repair(
        n: u32,
        t: u32,
        w: u32,
        vector: *const u8,
        vector_length: usize,
        checks: *const u8,
        checks_length: usize,
        output: *mut u8,
        output_length: usize,
    ) -> Before;
}

/// As archive.rs has it of this archive: safe for the same reason.
fn repair_before(i: &Input, output: &mut [u8]) -> Before {
    unsafe {
        before_repair(
            i.n as u32,
            i.t as u32,
            i.w as u32,
            i.vector.as_ptr(),
            i.vector.len(),
            i.checks.as_ptr(),
            i.checks.len(),
            output.as_mut_ptr(),
            output.len(),
        )
    }
}

fn main() {
    warm_up();
    let programs = [
        Program {
            name: "before",
            run: &|i, output| {
                let Before { answer, changed } = repair_before(i, output);
                (answer, changed, [0; 8])
            },
        },
        Program {
            name: "after",
            run: &|i, output| {
                let (n, t, w) = (i.n as u32, i.t as u32, i.w as u32);
                let repaired = archive::repair(n, t, w, &i.vector, &i.checks, output);
                (repaired.answer, repaired.changed, [0; 8])
            },
        },
    ];
    let mut chance = Chance::new(1);
    for _ in 0..RANDOM {
        assert_alike(&programs, &Input::random(&mut chance));
    }
    println!(
        "{RANDOM} random inputs are answered as before, in the vector and in the places changed."
    );
    println!();
    println!(
        "Microseconds a call of repair, medians of {ROUNDS} rounds of {IN_A_ROW} calls each, in turn, buffers not cleared:"
    );
    println!();
    print_table(&programs, &REPAIRS, 2, &mut chance);
}
