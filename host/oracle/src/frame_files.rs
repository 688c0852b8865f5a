//! Frame files: good ones, and such that are cut, lengthened or spoilt.
use plain::file::{FILTER_LENGTH, MOST_FILTERS, MOST_FRAMES};

use crate::{
    cases::matcher::{mostly_ones, random_filter, random_frame},
    driver::filters::FILTERS,
    random::Random,
};

/// Files at the limits of the counts, the kinds and the length.
pub fn at_limits(random: &mut Random) -> Vec<Vec<u8>> {
    let longest = good(MOST_FILTERS, MOST_FRAMES, random);
    let too_long = |by: usize| [&longest[..], &vec![0; by]].concat();
    let kind_last = |kind: u8| [&longest[..1 + 2 * FILTER_LENGTH], &[kind]].concat();
    vec![
        vec![],
        vec![0],
        vec![16],
        vec![17],
        vec![0, 0x10],
        vec![0, 0x10, 0x00],
        vec![0, 0x10, 0x01],
        kind_last(1),
        kind_last(2),
        longest[..longest.len() - 1].to_vec(),
        too_long(1),
        too_long(70_000),
        longest.clone(),
        good(0, MOST_FRAMES, random),
        good(MOST_FILTERS, 0, random),
        good(0, 0, random),
    ]
}

/// Half of them unspoilt; one in so many may be large.
pub fn any(one_large_in: u64, random: &mut Random) -> Vec<u8> {
    let filters = [0, 1, 2, MOST_FILTERS, random.below(17) as usize][random.below(5) as usize];
    let few = [0, 1, 2, random.below(14), random.below(120)][random.below(5) as usize];
    let many = [random.below(MOST_FRAMES as u64), MOST_FRAMES as u64][random.below(2) as usize];
    let mut file = good(filters, if random.one_in(one_large_in) { many } else { few } as usize, random);
    match random.below(8) {
        0 => file.truncate(random.below(file.len() as u64) as usize),
        1 => {
            let more = 1 + random.below(20) as usize;
            file.extend(random.bytes(more));
        }
        2 => {
            let place = random.below(file.len() as u64) as usize;
            file[place] = random.word() as u8;
        }
        3 => file[count_or_kind(filters, random)] = [2, 16, 17, random.word() as u8][random.below(4) as usize],
        _ => {}
    }
    file
}

pub fn good(filters: usize, frames: usize, random: &mut Random) -> Vec<u8> {
    let mut file = vec![filters as u8];
    file.extend(filter_entries(filters, random));
    file.extend((frames as u16).to_be_bytes());
    file.extend(frame_entries(frames, random));
    file
}

pub fn filter_entries(count: usize, random: &mut Random) -> Vec<u8> {
    let mut entries = Vec::with_capacity(FILTER_LENGTH * count);
    for _ in 0..count {
        entries.push(random.below(2) as u8);
        entries.extend(if random.one_in(2) { random_filter(&FILTERS, random) } else { mostly_ones(random) });
    }
    entries
}

pub fn frame_entries(count: usize, random: &mut Random) -> Vec<u8> {
    (0..count).flat_map(|_| random_frame(random.one_in(2), random)).collect()
}

/// The place of a kind, or of one byte of a count.
fn count_or_kind(filters: usize, random: &mut Random) -> usize {
    let place = random.below(filters as u64 + 3) as usize;
    match place {
        0 => 0,
        _ if place <= filters => 1 + FILTER_LENGTH * (place - 1),
        _ => 1 + FILTER_LENGTH * filters + (place - filters - 1),
    }
}
