//! What the program prints about a frame file.
use crate::{
    file::{self, File, Refusal},
    matcher::View,
};

/// `4095 `, and the end of a line.
const LONGEST_WITHOUT_VERDICTS: usize = 6;
const LONGEST_LAST_LINE: usize = "accepted 4096\n".len();

pub fn report(file: &[u8]) -> Vec<u8> {
    match file::read(file) {
        Ok(file) => verdicts(&file),
        Err(Refusal { number, at }) => format!("refused {number} at {at}\n").into_bytes(),
    }
}

fn verdicts(File { filters, frames }: &File) -> Vec<u8> {
    let line = LONGEST_WITHOUT_VERDICTS + filters.len().max(1);
    let mut text = Vec::with_capacity(line * frames.len() + LONGEST_LAST_LINE);
    let mut accepted = 0;
    for (index, frame) in frames.iter().enumerate() {
        push_decimal(&mut text, index);
        text.push(b' ');
        if filters.is_empty() {
            text.push(b'-');
        }
        let view = View::of(frame);
        let mut by_any = false;
        text.extend(filters.iter().map(|filter| {
            let accepts = filter.accepts(&view);
            by_any |= accepts;
            b'0' + u8::from(accepts)
        }));
        text.push(b'\n');
        accepted += usize::from(by_any);
    }
    text.extend(b"accepted ");
    push_decimal(&mut text, accepted);
    text.push(b'\n');
    text
}

fn push_decimal(text: &mut Vec<u8>, number: usize) {
    if number >= 10 {
        push_decimal(text, number / 10);
    }
    text.push(b'0' + (number % 10) as u8);
}
