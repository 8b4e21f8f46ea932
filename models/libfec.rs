//! libfec (Debian's libfec-dev) set to this field and these roots: a block of 255 bytes for each plane, column k at k - 1
//! and the checks at the end, zeros between. Its answer is "none" where it gives up, changes more than t bytes, or changes
//! a byte between. Which bytes it changed is what it says itself; up to which place of a plane it changed something is seen
//! by the two words.

use std::ffi::{c_int, c_void};
use std::ptr;

unsafe extern "C" {
    fn init_rs_char(
        symsize: c_int,
        gfpoly: c_int,
        fcr: c_int,
        prim: c_int,
        nroots: c_int,
        pad: c_int,
    ) -> *mut c_void;
    fn encode_rs_char(rs: *mut c_void, data: *mut u8, parity: *mut u8);
    fn decode_rs_char(
        rs: *mut c_void,
        data: *mut u8,
        eras_pos: *mut c_int,
        no_eras: c_int,
    ) -> c_int;
}

/// A coder for each t. It lives as long as the program.
pub struct Coders([*mut c_void; 11]);

impl Coders {
    pub fn new() -> Self {
        Coders(std::array::from_fn(|t| match t {
            0 => ptr::null_mut(),
            _ => unsafe { init_rs_char(8, 0x187, 120, 1, 2 * t as c_int, 0) },
        }))
    }

    /// The check values of a vector.
    pub fn checks(&self, n: usize, t: usize, w: usize, vector: &[u8]) -> Vec<u8> {
        let mut checks = vec![0; 2 * t * w];
        for p in 0..w {
            let mut block = [0; 255];
            for k in 0..n {
                block[k] = vector[k * w + p];
            }
            if t > 0 {
                let (data, parity) = block.split_at_mut(255 - 2 * t);
                unsafe { encode_rs_char(self.0[t], data.as_mut_ptr(), parity.as_mut_ptr()) };
                for c in 0..2 * t {
                    checks[c * w + p] = parity[c];
                }
            }
        }
        checks
    }

    /// Repair of lengths that are right: 0 and the vector in front of the output, or 256 for none; how many of the n + 2t places were
    /// changed in some plane; and for each plane the last place that differs, from 1, or n + 2t where there is none near.
    pub fn repair(
        &self,
        n: usize,
        t: usize,
        w: usize,
        vector: &[u8],
        checks: &[u8],
        output: &mut [u8],
    ) -> (u32, u32, [u8; 8]) {
        let mut repaired = [0; 256];
        let mut changed = [false; 255];
        let mut tried = [0; 8];
        let mut all_near = true;
        for p in 0..w {
            let mut block = [0; 255];
            for k in 0..n {
                block[k] = vector[k * w + p];
            }
            for c in 0..2 * t {
                block[255 - 2 * t + c] = checks[c * w + p];
            }
            let received = block;
            if t > 0 {
                // Room for 2t, the most that it writes.
                let mut positions = [0; 20];
                let count = unsafe {
                    decode_rs_char(self.0[t], block.as_mut_ptr(), positions.as_mut_ptr(), 0)
                };
                if count < 0 || count > t as c_int || block[n..255 - 2 * t].iter().any(|&b| b != 0)
                {
                    all_near = false;
                    tried[p] = (n + 2 * t) as u8;
                    continue;
                }
                for &position in &positions[..count as usize] {
                    changed[position as usize] = true;
                }
            }
            let places = (0..n).chain(255 - 2 * t..255);
            tried[p] = (1..)
                .zip(places)
                .filter(|(_, at)| block[*at] != received[*at])
                .last()
                .map_or(0, |(place, _)| place);
            for k in 0..n {
                repaired[k * w + p] = block[k];
            }
        }
        if !all_near {
            return (256, 0, tried);
        }
        output[..n * w].copy_from_slice(&repaired[..n * w]);
        let places = changed[..n].iter().chain(&changed[255 - 2 * t..]);
        let changed = places.filter(|&&changed| changed).count() as u32;
        (0, changed, tried)
    }
}
