//! The archive's functions, as `include/grainlantern.h` declares them. All unsafe code of this crate stands here.
//!
//! Every input has its answer, so a call is sound where its pointers are: each must be good for as many bytes as the length beside it
//! says, `value` for four numbers, and what is written to must overlap nothing else that is handed in. References give all of that.

#![allow(unsafe_code)]

use crate::tally::Tally;

/// A function's number, and its four values.
pub type Answer = (u32, [u64; 4]);

extern "C" {
    fn grainlantern_compile(
        text: *const u8,
        text_len: usize,
        program: *mut u8,
        program_len: usize,
        value: *mut u64,
    ) -> u32;
    fn grainlantern_judge(
        program: *const u8,
        program_len: usize,
        record: *const u8,
        record_len: usize,
        lines: *mut u8,
        lines_len: usize,
        value: *mut u64,
    ) -> u32;
    fn grainlantern_judge_counted(
        program: *const u8,
        program_len: usize,
        record: *const u8,
        record_len: usize,
        lines: *mut u8,
        lines_len: usize,
        tally: *mut Tally,
        value: *mut u64,
    ) -> u32;
    fn grainlantern_step(records: *const u8, records_len: usize, at: usize, value: *mut u64)
        -> u32;
}

/// What the values are before a call, which sets all four.
const UNSET: [u64; 4] = [u64::MAX; 4];

/// Compiles a text: 0 and the program's bytes, or the refusal's number, 1 to 8, and its place.
pub fn compile(text: &[u8], program: &mut [u8]) -> Answer {
    let mut value = UNSET;
    // SAFETY: both slices are lent with their lengths, `value` has four numbers, and exclusive references overlap nothing
    let number = unsafe {
        grainlantern_compile(
            text.as_ptr(),
            text.len(),
            program.as_mut_ptr(),
            program.len(),
            value.as_mut_ptr(),
        )
    };
    (number, value)
}

/// Judges a record: 1 kept with the steps and the bytes of its lines, 0 dropped with the steps, or the refusal's number, 11 to 20.
pub fn judge(program: &[u8], record: &[u8], lines: &mut [u8]) -> Answer {
    let mut value = UNSET;
    // SAFETY: the three slices are lent with their lengths, `value` has four numbers, and exclusive references overlap nothing
    let number = unsafe {
        grainlantern_judge(
            program.as_ptr(),
            program.len(),
            record.as_ptr(),
            record.len(),
            lines.as_mut_ptr(),
            lines.len(),
            value.as_mut_ptr(),
        )
    };
    (number, value)
}

/// The same, counted in the tally; 21 for one that is full.
pub fn judge_counted(program: &[u8], record: &[u8], lines: &mut [u8], tally: &mut Tally) -> Answer {
    let mut value = UNSET;
    // SAFETY: the three slices are lent with their lengths, `tally` is laid out as in C, `value` has four numbers, and exclusive
    // references overlap nothing
    let number = unsafe {
        grainlantern_judge_counted(
            program.as_ptr(),
            program.len(),
            record.as_ptr(),
            record.len(),
            lines.as_mut_ptr(),
            lines.len(),
            tally,
            value.as_mut_ptr(),
        )
    };
    (number, value)
}

/// What stands at a place of a run of records: 0 a record and its bytes, 1 done, 2 cut and the bytes left.
pub fn step(records: &[u8], at: usize) -> Answer {
    let mut value = UNSET;
    // SAFETY: the slice is lent with its length, any place has its answer, and `value` has four numbers
    let number =
        unsafe { grainlantern_step(records.as_ptr(), records.len(), at, value.as_mut_ptr()) };
    (number, value)
}
