//! What the driver's side does with frame files. The driver has none: the twins in plain Rust stand in.
use std::slice;

use plain::{
    file::{self, File, Refusal},
    report,
};

use super::lay;
use crate::{answer::Answer, face::files::Files};

/// Where the first filter stands, after a count of one byte.
const FILTERS_START: usize = 1;

pub const FILES: Files = Files { read_file, write_file, report };

unsafe extern "C" fn read_file(file: *const u8, file_length: usize) -> Answer {
    let bytes = unsafe { slice::from_raw_parts(file, file_length) };
    match file::read(bytes) {
        Ok(File { filters, frames }) => {
            let frames_start = frames.as_ptr().addr() - file.addr();
            let fields = [filters.len(), frames.len(), FILTERS_START, frames_start];
            Answer::gives(fields.into_iter().rev().fold(0, |number, field| number << 16 | field as u64))
        }
        Err(refusal) => refused(refusal),
    }
}

unsafe extern "C" fn write_file(
    filters: *const u8,
    filters_length: usize,
    frames: *const u8,
    frames_length: usize,
    out: *mut u8,
    out_length: usize,
) -> Answer {
    let filters = unsafe { slice::from_raw_parts(filters, filters_length) };
    let frames = unsafe { slice::from_raw_parts(frames, frames_length) };
    let out = unsafe { slice::from_raw_parts_mut(out, out_length) };
    file::write(filters, frames).map_or_else(refused, |file| lay(&file, out))
}

unsafe extern "C" fn report(file: *const u8, file_length: usize, out: *mut u8, out_length: usize) -> Answer {
    let file = unsafe { slice::from_raw_parts(file, file_length) };
    let out = unsafe { slice::from_raw_parts_mut(out, out_length) };
    lay(&report::report(file), out)
}

fn refused(Refusal { number, at }: Refusal) -> Answer {
    Answer::refuses(number, at as u64)
}
