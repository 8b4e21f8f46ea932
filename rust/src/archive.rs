//! The archive's structs and calls as C has them (`include/sajowemi.h`).

/// The longest frame, header included.
pub const LONGEST_FRAME: usize = 164;
pub const MOST_COLUMNS: usize = 32;
/// The most bytes of a value, each of which is a plane of the code.
pub const VALUE_ROOM: usize = 8;
/// Room for a value of every column.
pub const VECTOR_ROOM: usize = MOST_COLUMNS * VALUE_ROOM;
/// What a round told of a sender where it is no number of places: no frame of the sender's counted in that round.
pub const TOLD_MISSING: u8 = 254;
/// The same: the sender's check values fit no vector near.
pub const TOLD_NONE: u8 = 255;

/// Who a column is: its settings, own number, run and own value, zeros behind it.
#[derive(Clone, Copy)]
#[repr(C)]
pub struct Identity {
    pub n: u32,
    pub t: u32,
    pub w: u32,
    pub number: u32,
    pub run: u16,
    pub own: [u8; VALUE_ROOM],
}

/// What came in from one sender for a round: whether its frame was taken, which any number but 0 says, and the frame.
#[derive(Clone, Copy)]
#[repr(C)]
pub struct Slot {
    pub taken: u8,
    pub bytes: [u8; LONGEST_FRAME],
}

/// What a column has found: V after round one, Y after two, values and confidences after three; and of each sender what rounds two and
/// three told: how many places were changed when its row was repaired, 0 for the own row, or a mark. Opening leaves zeros, which stay until
/// that round is closed; behind n columns there are zeros then too.
#[derive(Clone, Copy)]
#[repr(C)]
pub struct Findings {
    pub heard: [u8; VECTOR_ROOM],
    pub agreed: [u8; VECTOR_ROOM],
    pub values: [u8; VECTOR_ROOM],
    pub confidences: [u8; MOST_COLUMNS],
    pub told_two: [u8; MOST_COLUMNS],
    pub told_three: [u8; MOST_COLUMNS],
}

/// A column's record, with the frames of its round and those that came early, for the round that follows; and of each slot how many of its
/// frames were refused 9 to 15 since the opening, up to the count's top. Its bits may be anything: each call checks it again.
#[derive(Clone, Copy)]
#[repr(C)]
pub struct Column {
    pub who: Identity,
    pub slots: [Slot; MOST_COLUMNS],
    pub early: [Slot; MOST_COLUMNS],
    pub found: Findings,
    pub round: u32,
    pub refused: [u32; MOST_COLUMNS],
}

#[derive(Clone, Copy)]
#[repr(C)]
pub struct Outcome {
    pub answer: u32,
    pub column: Column,
}

/// The values and confidences of n columns and what rounds two and three told of them, zeros behind them.
#[derive(Clone, Copy)]
#[repr(C)]
pub struct Holdings {
    pub answer: u32,
    pub values: [u8; VECTOR_ROOM],
    pub confidences: [u8; MOST_COLUMNS],
    pub told_two: [u8; MOST_COLUMNS],
    pub told_three: [u8; MOST_COLUMNS],
}

#[derive(Clone, Copy)]
#[repr(C)]
pub struct Level {
    pub answer: u32,
    pub level: i64,
    pub correction: i64,
}

/// The answer of repair, and how many of the n + 2t places it changed: columns' values, then check values, a place counted once if any
/// byte of it changed. 0 for a refusal and for none. And for each of w byte planes how many places its search tried, up to the last wrong
/// one: 0 where none is wrong, all n + 2t where the plane has no codeword near, zeros behind w planes and for a refusal.
#[derive(Clone, Copy)]
#[repr(C)]
pub struct Repaired {
    pub answer: u32,
    pub changed: u32,
    pub tried: [u8; VALUE_ROOM],
}

mod linked {
    use super::{Column, Holdings, Level, Outcome, Repaired};

    unsafe extern "C" {
        pub fn sajowemi_open(
            n: u32,
            t: u32,
            w: u32,
            number: u32,
            run: u16,
            own: *const u8,
            own_length: usize,
        ) -> Outcome;
        pub fn sajowemi_take(
            column: Column,
            slot: u32,
            frame: *const u8,
            frame_length: usize,
        ) -> Outcome;
        pub fn sajowemi_frame_size(column: Column) -> u32;
        pub fn sajowemi_send(column: Column, buffer: *mut u8, buffer_length: usize) -> u32;
        pub fn sajowemi_close(column: Column) -> Outcome;
        pub fn sajowemi_result(column: Column) -> Holdings;
        pub fn sajowemi_level(column: Column) -> Level;
        pub fn sajowemi_check_values(
            n: u32,
            t: u32,
            w: u32,
            vector: *const u8,
            vector_length: usize,
            output: *mut u8,
            output_length: usize,
        ) -> u32;
        pub fn sajowemi_repair(
            n: u32,
            t: u32,
            w: u32,
            vector: *const u8,
            vector_length: usize,
            checks: *const u8,
            checks_length: usize,
            output: *mut u8,
            output_length: usize,
        ) -> Repaired;
    }
}

// The calls require of their arguments only that no buffer overlaps one that is written, which Rust's borrows exclude, and a slice's
// pointer and length are what they may read or write: so each is safe.

pub fn open(n: u32, t: u32, w: u32, number: u32, run: u16, own: &[u8]) -> Outcome {
    unsafe { linked::sajowemi_open(n, t, w, number, run, own.as_ptr(), own.len()) }
}

pub fn take(column: &Column, slot: u32, frame: &[u8]) -> Outcome {
    unsafe { linked::sajowemi_take(*column, slot, frame.as_ptr(), frame.len()) }
}

pub fn frame_size(column: &Column) -> u32 {
    unsafe { linked::sajowemi_frame_size(*column) }
}

pub fn send(column: &Column, buffer: &mut [u8]) -> u32 {
    unsafe { linked::sajowemi_send(*column, buffer.as_mut_ptr(), buffer.len()) }
}

pub fn close(column: &Column) -> Outcome {
    unsafe { linked::sajowemi_close(*column) }
}

pub fn result(column: &Column) -> Holdings {
    unsafe { linked::sajowemi_result(*column) }
}

pub fn level(column: &Column) -> Level {
    unsafe { linked::sajowemi_level(*column) }
}

pub fn check_values(n: u32, t: u32, w: u32, vector: &[u8], output: &mut [u8]) -> u32 {
    unsafe {
        linked::sajowemi_check_values(
            n,
            t,
            w,
            vector.as_ptr(),
            vector.len(),
            output.as_mut_ptr(),
            output.len(),
        )
    }
}

pub fn repair(n: u32, t: u32, w: u32, vector: &[u8], checks: &[u8], output: &mut [u8]) -> Repaired {
    unsafe {
        linked::sajowemi_repair(
            n,
            t,
            w,
            vector.as_ptr(),
            vector.len(),
            checks.as_ptr(),
            checks.len(),
            output.as_mut_ptr(),
            output.len(),
        )
    }
}
