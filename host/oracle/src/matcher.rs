//! The matcher, which the driver lacks: a model after the outline's words ("The matcher") and those of request #103,
//! position by position.
use crate::face::{FRAME_LENGTH, filters::REGISTERS_LENGTH};

/// A position in the registers' words, and what the frame shows there.
type Shown = (usize, bool);

/// Whether a single filter finds no difference where it compares, or a dual filter finds none in either half.
pub fn accepts(dual: bool, registers: &[u8; REGISTERS_LENGTH], frame: &[u8; FRAME_LENGTH]) -> bool {
    let (code, mask) = (bits(&registers[..4]), bits(&registers[4..]));
    let agrees = |(position, shown): &Shown| {
        let compared = !mask[31 - position];
        !compared || code[31 - position] == *shown
    };
    halves(dual, frame).iter().any(|half| half.iter().all(agrees))
}

/// What a frame shows to each half of a dual filter; a single filter is one half. The frame's own format says where.
fn halves(dual: bool, frame: &[u8; FRAME_LENGTH]) -> Vec<Vec<Shown>> {
    let bits = bits(frame);
    let (extended, remote) = (bits[0], &bits[1..2]);
    let (standard_id, extended_id, top_of_id) = (&bits[8..19], &bits[8..37], &bits[8..24]);
    let (first, second) = (data_byte(&bits, 0), data_byte(&bits, 1));
    let (high, low) = first.split_at(first.len() / 2);
    match (dual, extended) {
        (false, false) => vec![[at(31, standard_id), at(20, remote), at(15, &first), at(7, &second)].concat()],
        (false, true) => vec![[at(31, extended_id), at(2, remote)].concat()],
        (true, false) => vec![
            [at(31, standard_id), at(20, remote), at(19, high), at(3, low)].concat(),
            [at(15, standard_id), at(4, remote)].concat(),
        ],
        (true, true) => vec![at(31, top_of_id), at(15, top_of_id)],
    }
}

/// A data byte of a standard frame; nothing is shown of one that the frame lacks, whatever the buffer holds there.
fn data_byte(frame: &[bool], index: usize) -> Vec<bool> {
    let (remote, code) = (frame[1], frame[4..8].iter().fold(0, |code, bit| 2 * code + usize::from(*bit)));
    let length = if remote { 0 } else { code.min(8) };
    let start = 8 * (3 + index);
    if index < length { frame[start..start + 8].to_vec() } else { vec![] }
}

/// These bits, at the positions from the highest down.
fn at(highest: usize, bits: &[bool]) -> Vec<Shown> {
    bits.iter().enumerate().map(|(place, bit)| (highest - place, *bit)).collect()
}

/// The bits of these bytes, each byte's highest first.
fn bits(bytes: &[u8]) -> Vec<bool> {
    bytes.iter().flat_map(|byte| (0..8).rev().map(move |bit| byte >> bit & 1 == 1)).collect()
}
