//! The matcher of the driver's side. The driver has none, since the controller does this work: the model stands in.
use std::slice;

use crate::{
    answer::{Answer, FILTER_KIND, WRONG_SLICE_LENGTH},
    matcher::accepts,
};

pub unsafe extern "C" fn matcher_accepts(
    kind: u8,
    registers: *const u8,
    registers_length: usize,
    frame: *const u8,
    frame_length: usize,
) -> Answer {
    let Ok(registers) = (unsafe { slice::from_raw_parts(registers, registers_length) }).try_into() else {
        return Answer::refuses(WRONG_SLICE_LENGTH, 1);
    };
    let Ok(frame) = (unsafe { slice::from_raw_parts(frame, frame_length) }).try_into() else {
        return Answer::refuses(WRONG_SLICE_LENGTH, 2);
    };
    match kind {
        0 => Answer::gives(u64::from(accepts(false, registers, frame))),
        1 => Answer::gives(u64::from(accepts(true, registers, frame))),
        _ => Answer::refuses(FILTER_KIND, 0),
    }
}
