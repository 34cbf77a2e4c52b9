//! Cases to be tried alone: paste here what a found difference prints. The first are the paper's record R, and its text `-aspath !432`.

use differential::{same_compiled, same_judged, same_step};

const R: &str = "60b8d2cb00100004000000470003097c0000fbf400000001c0000201c0000202\
    ffffffffffffffffffffffffffffffff003302000000184001010040020a02020003097c00000d05400304c0000201180a0102";

/// `! -loops`, which keeps it.
const PROGRAM: &str = "060000000000000000000000000000000a000000000000000000000000000000";

#[test]
fn lines_that_just_fit() {
    same_judged(PROGRAM, R, 71, None);
    same_judged(PROGRAM, R, 70, Some([1, 2, 3, 4]));
    same_judged(PROGRAM, R, 71, Some([1, 2, u32::MAX, 4]));
}

#[test]
fn a_mark_in_an_operand_s_place() {
    same_compiled("2d6173706174682021343332", 64);
}

#[test]
fn a_run_that_is_cut() {
    same_step(&R[..80], 0);
    same_step(R, 83);
}
