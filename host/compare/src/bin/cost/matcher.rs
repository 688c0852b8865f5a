//! The rows of the matcher. The driver has none: on its side stands plain Rust by words.
use std::{hint::black_box, slice};

use compare::library::LIBRARY;
use oracle::{
    answer::{Answer, FILTER_KIND, WRONG_SLICE_LENGTH},
    face::{FRAME_LENGTH, filters::REGISTERS_LENGTH},
};
use plain::matcher::{Filter, View};

use crate::repeat;

type Accepts = unsafe extern "C" fn(u8, *const u8, usize, *const u8, usize) -> Answer;
type Frame = [u8; FRAME_LENGTH];

pub struct Row {
    pub name: &'static str,
    kind: u8,
    /// The mask register is zero: all is compared.
    code: u32,
    frame: Frame,
    answer: Answer,
}

/// Identifier 0x5A5, and 0x12345678; the data are 1 to 8.
const STANDARD: Frame = [0x08, 0xB4, 0xA0, 1, 2, 3, 4, 5, 6, 7, 8, 0, 0];
const EXTENDED: Frame = [0x88, 0x91, 0xA2, 0xB3, 0xC0, 1, 2, 3, 4, 5, 6, 7, 8];
const REMOTE: Frame = [0x48, 0xB4, 0xA0, 1, 2, 3, 4, 5, 6, 7, 8, 0, 0];

const YES: Answer = Answer { number: 0, value: 1 };
const NO: Answer = Answer { number: 0, value: 0 };
const WRONG_KIND: Answer = Answer { number: FILTER_KIND, value: 0 };

const fn row(name: &'static str, kind: u8, code: u32, frame: Frame, answer: Answer) -> Row {
    Row { name, kind, code, frame, answer }
}

pub const ROWS: [Row; 13] = [
    row("match single standard, accepted", 0, 0xB4A0_0102, STANDARD, YES),
    row("match single standard, not accepted", 0, 0xB4A0_0103, STANDARD, NO),
    row("match single standard, remote, accepted", 0, 0xB4B0_0000, REMOTE, YES),
    row("match single extended, accepted", 0, 0x91A2_B3C0, EXTENDED, YES),
    row("match single extended, not accepted", 0, 0x91A2_B3C8, EXTENDED, NO),
    row("match dual standard, accepted by the first half", 1, 0xB4A0_0001, STANDARD, YES),
    row("match dual standard, accepted by the second half", 1, 0x0000_B4A0, STANDARD, YES),
    row("match dual standard, not accepted", 1, 0, STANDARD, NO),
    row("match dual standard, remote, accepted by the second half", 1, 0x0000_B4B0, REMOTE, YES),
    row("match dual extended, accepted by the first half", 1, 0x91A2_0000, EXTENDED, YES),
    row("match dual extended, accepted by the second half", 1, 0x0000_91A2, EXTENDED, YES),
    row("match dual extended, not accepted", 1, 0, EXTENDED, NO),
    row("refuse 7 (kind 2)", 2, 0, STANDARD, WRONG_KIND),
];

pub fn by_library(row: &Row, times: u64) {
    by_face(LIBRARY.matcher_accepts, row, times);
}

pub fn by_plain_face(row: &Row, times: u64) {
    by_face(plain_accepts, row, times);
}

pub fn bare(row: &Row, times: u64) {
    let Row { kind, frame, .. } = *row;
    let registers = registers(row);
    repeat(times, || {
        let (kind, registers, frame) = black_box((kind, &registers, &frame));
        black_box((kind <= 1).then(|| Filter::new(kind == 1, registers).accepts(&View::of(frame))));
    })
}

fn by_face(accepts: Accepts, row: &Row, times: u64) {
    let (accepts, registers, frame) = (black_box(accepts), registers(row), row.frame);
    let call = |registers: &[u8; REGISTERS_LENGTH], frame: &Frame| unsafe {
        accepts(row.kind, registers.as_ptr(), registers.len(), frame.as_ptr(), frame.len())
    };
    assert_eq!(call(&registers, &frame), row.answer, "{}", row.name);
    repeat(times, || {
        let (registers, frame) = black_box((&registers, &frame));
        black_box(call(registers, frame));
    })
}

fn registers(row: &Row) -> [u8; REGISTERS_LENGTH] {
    (u64::from(row.code) << 32).to_be_bytes()
}

unsafe extern "C" fn plain_accepts(
    kind: u8,
    registers: *const u8,
    registers_length: usize,
    frame: *const u8,
    frame_length: usize,
) -> Answer {
    let Ok(registers) = (unsafe { slice::from_raw_parts(registers, registers_length) }).try_into() else {
        return Answer::refuses(WRONG_SLICE_LENGTH, 1);
    };
    let Ok(frame) = (unsafe { slice::from_raw_parts(frame, frame_length) }).try_into() else {
        return Answer::refuses(WRONG_SLICE_LENGTH, 2);
    };
    if kind > 1 {
        return Answer::refuses(FILTER_KIND, 0);
    }
    Answer::gives(u64::from(Filter::new(kind == 1, registers).accepts(&View::of(frame))))
}
