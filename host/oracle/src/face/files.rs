//! The functions about frame files of the face.
use crate::answer::Answer;

pub struct Files {
    pub read_file: unsafe extern "C" fn(file: *const u8, file_length: usize) -> Answer,
    pub write_file: unsafe extern "C" fn(
        filters: *const u8,
        filters_length: usize,
        frames: *const u8,
        frames_length: usize,
        out: *mut u8,
        out_length: usize,
    ) -> Answer,
    pub report: unsafe extern "C" fn(file: *const u8, file_length: usize, out: *mut u8, out_length: usize) -> Answer,
}
