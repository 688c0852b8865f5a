//! The second way of building, which the driver lacks, after the words of request #101: a remote frame without data may
//! have a code, which stands in byte 0. All else is the driver's own answer.
use std::slice;

use original::twai::probe;

use super::{new_from_parameters, put, to_id};
use crate::{
    answer::{Answer, IDENTIFIER_TOO_LARGE, NON_COMPLIANT_CODE, WRONG_SLICE_LENGTH},
    face::FRAME_LENGTH,
};

pub unsafe extern "C" fn new_with_remote_length(
    extended: bool,
    id: u32,
    remote_request: bool,
    self_reception: bool,
    dlc: usize,
    data: *const u8,
    data_length: usize,
    frame: *mut u8,
    frame_length: usize,
) -> Answer {
    if !remote_request || data_length > 0 {
        return unsafe {
            new_from_parameters(
                extended,
                id,
                remote_request,
                self_reception,
                dlc,
                data,
                data_length,
                frame,
                frame_length,
            )
        };
    }
    let frame = unsafe { slice::from_raw_parts_mut(frame, frame_length) };
    if frame.len() != FRAME_LENGTH {
        return Answer::refuses(WRONG_SLICE_LENGTH, 6);
    }
    let Some(id) = to_id(extended, id) else {
        return Answer::refuses(IDENTIFIER_TOO_LARGE, 0);
    };
    if dlc > 8 {
        return Answer::refuses(NON_COMPLIANT_CODE, u64::from(dlc as u8));
    }
    let without_code =
        probe::new_from_parameters(id, true, self_reception, 0, &[]).expect("a remote frame with code 0");
    let answer = put(&without_code, frame);
    frame[0] |= dlc as u8;
    answer
}
