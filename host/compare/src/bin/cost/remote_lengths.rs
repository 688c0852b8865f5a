//! The rows of the second way of building: a remote frame that asks for a length. The driver lacks it: on its side stands
//! its own constructor, with code 0, and the code laid into byte 0 after it.
use std::hint::black_box;

use oracle::{
    driver::to_id,
    face::{FRAME_LENGTH, Face},
};
use original::twai::probe;

use crate::repeat;

pub struct Row {
    pub name: &'static str,
    extended: bool,
    id: u32,
    dlc: usize,
}

const fn row(name: &'static str, (extended, id): (bool, u32), dlc: usize) -> Row {
    Row { name, extended, id, dlc }
}

pub const ROWS: [Row; 3] = [
    row("build standard, remote, code 8", (false, 0x123), 8),
    row("build extended, remote, code 8", (true, 0x1234_5678), 8),
    row("refuse 3 (remote, code 9)", (false, 0x123), 9),
];

pub fn by_face(face: &Face, row: &Row, times: u64) {
    let (data, mut frame) = ([0; 1], [0; FRAME_LENGTH]);
    let to = frame.as_mut_ptr();
    repeat(times, || {
        let Row { extended, id, dlc, .. } = *black_box(row);
        let function = face.new_with_remote_length;
        black_box(unsafe { function(extended, id, true, false, dlc, data.as_ptr(), 0, to, FRAME_LENGTH) });
    });
}

pub fn bare(row: &Row, times: u64) {
    repeat(times, || {
        let Row { extended, id, dlc, .. } = *black_box(row);
        let Some(id) = to_id(extended, id).filter(|_| dlc <= 8) else { return };
        let built = probe::new_from_parameters(id, true, false, 0, &[]).expect("a remote frame with code 0");
        let mut bytes = *probe::bytes(&built);
        bytes[0] |= dlc as u8;
        black_box(bytes);
    });
}
