//! Why a frame file is refused, in words.
use crate::file::{MOST_FILTERS, MOST_FRAMES, Refusal};

pub fn words(file: &[u8], refusal: &Refusal) -> String {
    let at = refusal.at;
    match refusal.number {
        7 => format!("the filter at byte {at} is of kind {}; a kind is 0 (single) or 1 (dual)", file[at]),
        11 => format!("the file's length is {}, too short for the field that begins at byte {at}", file.len()),
        12 if at == 0 => format!("{} filters announced, at most {MOST_FILTERS}; is this a frame file?", file[0]),
        12 => {
            let count = u16::from_be_bytes([file[at], file[at + 1]]);
            format!("{count} frames announced, at most {MOST_FRAMES}")
        }
        _ => format!("by its counts the file has {at} bytes, but more follow"),
    }
}
