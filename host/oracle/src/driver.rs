//! The driver's side of the face. What the driver has no counterpart for is added by the rules of docs/ABI.md:
//! the refusals 14 and 6, refusal 1 where a constructor answers `None`, the number of a refused `new`, the second way of
//! building, the matcher, and what is done with frame files.
use std::slice;

use original::twai::{EspTwaiError, EspTwaiFrame, ExtendedId, Id, StandardId, probe};

use crate::{
    answer::{
        Answer, IDENTIFIER_TOO_LARGE, INVALID_DATA_LENGTH, NON_COMPLIANT_CODE, OUTPUT_TOO_SHORT, WRONG_SLICE_LENGTH,
    },
    face::{FRAME_LENGTH, Face},
};

mod decisions;
mod files;
pub mod filters;
mod matcher;
mod remote_length;

pub const DRIVER: Face = Face {
    standard_id_new,
    extended_id_new,
    extended_id_standard_id,
    new_from_parameters,
    new_with_remote_length: remote_length::new_with_remote_length,
    new,
    new_self_reception,
    is_extended_format,
    is_remote_request,
    is_self_reception,
    data_length_code,
    data_length,
    data_offset,
    identifier,
    data,
    as_slice,
    filters: filters::FILTERS,
    matcher_accepts: matcher::matcher_accepts,
    files: files::FILES,
    transmit: decisions::transmit,
    poll: decisions::poll,
    receive: decisions::receive,
};

extern "C" fn standard_id_new(raw: u16) -> Answer {
    or_identifier_too_large(StandardId::new(raw).map(|id| u64::from(id.as_raw())))
}

extern "C" fn extended_id_new(raw: u32) -> Answer {
    or_identifier_too_large(ExtendedId::new(raw).map(|id| u64::from(id.as_raw())))
}

extern "C" fn extended_id_standard_id(raw: u32) -> Answer {
    or_identifier_too_large(ExtendedId::new(raw).map(|id| u64::from(id.standard_id().as_raw())))
}

unsafe extern "C" fn new_from_parameters(
    extended: bool,
    id: u32,
    remote_request: bool,
    self_reception: bool,
    dlc: usize,
    data: *const u8,
    data_length: usize,
    frame: *mut u8,
    frame_length: usize,
) -> Answer {
    let data = unsafe { slice::from_raw_parts(data, data_length) };
    let frame = unsafe { slice::from_raw_parts_mut(frame, frame_length) };
    if frame.len() != FRAME_LENGTH {
        return Answer::refuses(WRONG_SLICE_LENGTH, 6);
    }
    let Some(id) = to_id(extended, id) else {
        return Answer::refuses(IDENTIFIER_TOO_LARGE, 0);
    };
    match probe::new_from_parameters(id, remote_request, self_reception, dlc, data) {
        Ok(built) => put(&built, frame),
        Err(EspTwaiError::InvalidDataLength(length)) => Answer::refuses(INVALID_DATA_LENGTH, u64::from(length)),
        Err(EspTwaiError::NonCompliantDlc(code)) => Answer::refuses(NON_COMPLIANT_CODE, u64::from(code)),
        Err(other) => panic!("not an error of a constructor: {other:?}"),
    }
}

unsafe extern "C" fn new(
    extended: bool,
    id: u32,
    data: *const u8,
    data_length: usize,
    frame: *mut u8,
    frame_length: usize,
) -> Answer {
    let data = unsafe { slice::from_raw_parts(data, data_length) };
    let frame = unsafe { slice::from_raw_parts_mut(frame, frame_length) };
    construct(extended, id, data, frame, EspTwaiFrame::new)
}

unsafe extern "C" fn new_self_reception(
    extended: bool,
    id: u32,
    data: *const u8,
    data_length: usize,
    frame: *mut u8,
    frame_length: usize,
) -> Answer {
    let data = unsafe { slice::from_raw_parts(data, data_length) };
    let frame = unsafe { slice::from_raw_parts_mut(frame, frame_length) };
    construct(extended, id, data, frame, EspTwaiFrame::new_self_reception)
}

unsafe extern "C" fn is_extended_format(frame: *const u8, frame_length: usize) -> Answer {
    unsafe { read(frame, frame_length, |frame| u64::from(probe::is_extended_format(frame))) }
}

unsafe extern "C" fn is_remote_request(frame: *const u8, frame_length: usize) -> Answer {
    unsafe { read(frame, frame_length, |frame| u64::from(frame.is_remote_request())) }
}

unsafe extern "C" fn is_self_reception(frame: *const u8, frame_length: usize) -> Answer {
    unsafe { read(frame, frame_length, |frame| u64::from(frame.is_self_reception())) }
}

unsafe extern "C" fn data_length_code(frame: *const u8, frame_length: usize) -> Answer {
    unsafe { read(frame, frame_length, |frame| frame.data_length_code() as u64) }
}

unsafe extern "C" fn data_length(frame: *const u8, frame_length: usize) -> Answer {
    unsafe { read(frame, frame_length, |frame| frame.data_length() as u64) }
}

unsafe extern "C" fn data_offset(frame: *const u8, frame_length: usize) -> Answer {
    unsafe { read(frame, frame_length, |frame| probe::data_offset(frame) as u64) }
}

unsafe extern "C" fn identifier(frame: *const u8, frame_length: usize) -> Answer {
    unsafe {
        read(frame, frame_length, |frame| match frame.identifier() {
            Id::Standard(id) => u64::from(id.as_raw()),
            Id::Extended(id) => u64::from(id.as_raw()),
        })
    }
}

unsafe extern "C" fn data(frame: *const u8, frame_length: usize, out: *mut u8, out_length: usize) -> Answer {
    unsafe { copy(frame, frame_length, out, out_length, EspTwaiFrame::data) }
}

unsafe extern "C" fn as_slice(frame: *const u8, frame_length: usize, out: *mut u8, out_length: usize) -> Answer {
    unsafe { copy(frame, frame_length, out, out_length, probe::as_slice) }
}

fn or_identifier_too_large(value: Option<u64>) -> Answer {
    value.map_or(Answer::refuses(IDENTIFIER_TOO_LARGE, 0), Answer::gives)
}

pub fn to_id(extended: bool, number: u32) -> Option<Id> {
    if extended {
        ExtendedId::new(number).map(Id::Extended)
    } else {
        u16::try_from(number).ok().and_then(StandardId::new).map(Id::Standard)
    }
}

fn put(built: &EspTwaiFrame, frame: &mut [u8]) -> Answer {
    frame.copy_from_slice(probe::bytes(built));
    Answer::gives(FRAME_LENGTH as u64)
}

fn construct(
    extended: bool,
    id: u32,
    data: &[u8],
    frame: &mut [u8],
    constructor: impl Fn(Id, &[u8]) -> Option<EspTwaiFrame>,
) -> Answer {
    if frame.len() != FRAME_LENGTH {
        return Answer::refuses(WRONG_SLICE_LENGTH, 3);
    }
    let Some(id) = to_id(extended, id) else {
        return Answer::refuses(IDENTIFIER_TOO_LARGE, 0);
    };
    match constructor(id, data) {
        Some(built) => put(&built, frame),
        None => Answer::refuses(INVALID_DATA_LENGTH, data.len() as u64 % 256),
    }
}

unsafe fn to_frame<'a>(frame: *const u8, frame_length: usize) -> Option<&'a EspTwaiFrame> {
    let bytes = unsafe { slice::from_raw_parts(frame, frame_length) };
    bytes.try_into().ok().map(probe::as_frame)
}

unsafe fn read(frame: *const u8, frame_length: usize, reader: impl Fn(&EspTwaiFrame) -> u64) -> Answer {
    match unsafe { to_frame(frame, frame_length) } {
        Some(frame) => Answer::gives(reader(frame)),
        None => Answer::refuses(WRONG_SLICE_LENGTH, 0),
    }
}

unsafe fn copy(
    frame: *const u8,
    frame_length: usize,
    out: *mut u8,
    out_length: usize,
    reader: impl Fn(&EspTwaiFrame) -> &[u8],
) -> Answer {
    let out = unsafe { slice::from_raw_parts_mut(out, out_length) };
    let Some(frame) = (unsafe { to_frame(frame, frame_length) }) else {
        return Answer::refuses(WRONG_SLICE_LENGTH, 0);
    };
    lay(reader(frame), out)
}

fn lay(bytes: &[u8], out: &mut [u8]) -> Answer {
    let needed = bytes.len() as u64;
    match out.get_mut(..bytes.len()) {
        Some(front) => {
            front.copy_from_slice(bytes);
            Answer::gives(needed)
        }
        None => Answer::refuses(OUTPUT_TOO_SHORT, needed),
    }
}
