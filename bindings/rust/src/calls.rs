//! The calls of `cborn.h`.
//!
//! A safe caller keeps to their terms. The pointer of a slice is never null, and its length is at most `isize::MAX`. `&`
//! and `&mut` don't overlap, and nothing writes to what they borrow. How much stack is needed, `Depth::stack` gives.

use crate::faults::Fault;
use crate::reasons::Reason;
use crate::{Depth, Kind};

/// What a call reports in addition to its number.
#[repr(C)]
pub struct Told {
    /// The offset of a fault in bytes, else 0.
    pub place: u64,
    /// The length of the answer in bytes, even where it didn't fit.
    pub length: u64,
}

extern "C" {
    pub fn cborn_version() -> u32;
    pub fn cborn_normalise(
        from: u32, to: u32, order: u32, depth: u64, input: *const u8, input_len: usize,
        out: *mut u8, out_len: usize, told: *mut Told,
    ) -> u32;
    pub fn cborn_show(
        from: u32, to: u32, depth: u64, input: *const u8, input_len: usize,
        out: *mut u8, out_len: usize, told: *mut Told,
    ) -> u32;
    pub fn cborn_explain(
        from: u32, depth: u64, input: *const u8, input_len: usize, number: u32, place: u64,
        out: *mut u8, out_len: usize, told: *mut Told,
    ) -> u32;
    pub fn cborn_check(order: u32, depth: u64, input: *const u8, input_len: usize, place: *mut u64) -> u32;
    pub fn cborn_compare(
        from_a: u32, from_b: u32, depth: u64, first: *const u8, first_len: usize,
        second: *const u8, second_len: usize, place: *mut u64,
    ) -> u32;
    pub fn cborn_same(
        from_a: u32, from_b: u32, depth: u64, first: *const u8, first_len: usize,
        second: *const u8, second_len: usize, place: *mut u64,
    ) -> u32;
    pub fn cborn_normalise_one(
        from: u32, to: u32, order: u32, depth: u64, input: *const u8, input_len: usize,
        out: *mut u8, out_len: usize, told: *mut Told,
    ) -> u32;
    pub fn cborn_show_one(
        from: u32, to: u32, depth: u64, input: *const u8, input_len: usize,
        out: *mut u8, out_len: usize, told: *mut Told,
    ) -> u32;
    pub fn cborn_check_one(order: u32, depth: u64, input: *const u8, input_len: usize, place: *mut u64) -> u32;
    pub fn cborn_item_end(depth: u64, input: *const u8, input_len: usize, start: u64, place: *mut u64) -> u32;
    pub fn cborn_compare_one(
        from_a: u32, from_b: u32, depth: u64, first: *const u8, first_len: usize,
        second: *const u8, second_len: usize, place: *mut u64,
    ) -> u32;
}

/// `CBORN_STACK` of `cborn.h`.
pub fn stack(depth: usize) -> usize {
    20480 + 480 * depth
}

/// The answer of a call that writes one. The first buffer has `room` bytes. Where that is too little, the call is made
/// again with the room that it reported.
pub fn filled(room: usize, call: impl Fn(*mut u8, usize, &mut Told) -> u32) -> Result<Vec<u8>, Fault> {
    let mut out = Vec::new();
    let mut room = room;
    loop {
        if out.try_reserve_exact(room).is_err() {
            return Err(Fault::OutOfMemory);
        }
        let mut told = Told { place: 0, length: 0 };
        match call(out.as_mut_ptr(), out.capacity(), &mut told) {
            0 => {
                // SAFETY: the call wrote this many bytes to the start of `out`, and no more than the capacity it was given
                unsafe { out.set_len(told.length as usize) };
                return Ok(out);
            }
            1 => room = told.length as usize,
            code => return Err(Fault::new(code, told.place)),
        }
    }
}

/// The explanation of a fault or a defect. `None`: no input of this format has it, or memory is refused.
pub fn explained(input: &[u8], from: Kind, depth: Depth, reason: Reason, place: u64) -> Option<String> {
    let lines = filled(512, |out, room, told| unsafe {
        // SAFETY: as above
        cborn_explain(from as u32, depth.0, input.as_ptr(), input.len(), reason.number(), place, out, room, told)
    });
    String::from_utf8(lines.ok()?).ok()
}
