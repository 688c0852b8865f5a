//! The rows of the filter from a list. The driver has none: on its side stands plain Rust, in one pass.
use std::{hint::black_box, iter};

use compare::library::FROM_LIST;
use oracle::{
    face::filters::REGISTERS_LENGTH,
    lists::{FromList, model},
};
use plain::list::from_list;

use crate::repeat;

pub struct Row {
    pub name: &'static str,
    length: usize,
}

pub const ROWS: [Row; 3] = [
    Row { name: "filter from 2 standard identifiers", length: 2 },
    Row { name: "filter from 100 standard identifiers", length: 100 },
    Row { name: "filter from 200 standard identifiers", length: 200 },
];

pub fn by_library(row: &Row, times: u64) {
    by_face(FROM_LIST, row, times);
}

pub fn by_plain_face(row: &Row, times: u64) {
    by_face(model, row, times);
}

pub fn bare(row: &Row, times: u64) {
    let list = list(row);
    let (mut pattern, mut registers) = ([0; 11], [0; REGISTERS_LENGTH]);
    repeat(times, || {
        let _ = black_box(from_list(black_box(false), black_box(&list), &mut pattern, &mut registers));
    })
}

fn by_face(from_list: FromList, row: &Row, times: u64) {
    let (from_list, list) = (black_box(from_list), list(row));
    let (mut pattern, mut registers) = ([0; 11], [0; REGISTERS_LENGTH]);
    let (to, room) = (pattern.as_mut_ptr(), registers.as_mut_ptr());
    let call = |list: &[u32]| unsafe {
        from_list(black_box(false), list.as_ptr(), list.len(), to, 11, room, REGISTERS_LENGTH)
    };
    assert_eq!((call(&list).number, call(&list).value), (0, 2), "{}", row.name);
    repeat(times, || {
        black_box(call(black_box(&list)));
    })
}

/// 0x100 and 0x104 in turn.
fn list(row: &Row) -> Vec<u32> {
    iter::repeat([0x100, 0x104]).flatten().take(row.length).collect()
}
