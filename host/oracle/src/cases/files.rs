//! The cases of frame files.
use plain::{
    file::{FILTER_LENGTH, MOST_FILTERS, MOST_FRAMES},
    report::report,
};

use crate::{
    case::{Case, FileCall},
    face::FRAME_LENGTH,
    frame_files::{self, filter_entries, frame_entries},
    random::Random,
};

/// A file is read, reported on and another one written.
const CASES_OF_A_FILE: u64 = 3;
const ONE_LARGE_IN: u64 = 4_000;
/// More than the text about a short file needs.
const ROOM_OF_SHORT: usize = 24;

/// Visits every file of up to two bytes, every frame count, every kind, files at the limits, and as many random ones as
/// make `count` cases.
pub fn all(count: u64, visit: &mut impl FnMut(Case)) {
    let random = &mut Random::from_seed(14);
    short_files(visit);
    every_kind(random, visit);
    for file in frame_files::at_limits(random) {
        read_and_report(file, random, visit);
    }
    written_at_limits(random, visit);
    for _ in 0..count.div_ceil(CASES_OF_A_FILE) {
        read_and_report(frame_files::any(ONE_LARGE_IN, random), random, visit);
        random_writing(random, visit);
    }
}

/// Those of three bytes are without filters: each has another frame count.
fn short_files(visit: &mut impl FnMut(Case)) {
    let bytes = || 0..=u8::MAX;
    let pairs = || bytes().flat_map(move |first| bytes().map(move |second| [first, second]));
    let short = [vec![]].into_iter().chain(bytes().map(|byte| vec![byte])).chain(pairs().map(|pair| pair.to_vec()));
    let counts = pairs().map(|[high, low]| vec![0, high, low]);
    for file in short.chain(counts) {
        visit(Case::File(FileCall::Read { file: file.clone() }));
        visit(Case::File(FileCall::Report { file, room: ROOM_OF_SHORT }));
    }
}

/// Of the last of one to three filters, with and without its registers.
fn every_kind(random: &mut Random, visit: &mut impl FnMut(Case)) {
    for kind in 0..=u8::MAX {
        for filters in 1..=3 {
            let mut file = frame_files::good(filters, 1, random);
            let place = 1 + FILTER_LENGTH * (filters - 1);
            file[place] = kind;
            read_and_report(file[..=place].to_vec(), random, visit);
            let (entries, frames) = (file[1..place + FILTER_LENGTH].to_vec(), frame_entries(1, random));
            write(entries, frames, random, visit);
            read_and_report(file, random, visit);
        }
    }
}

/// One entry too many of either, or a byte more or less than whole ones; and the same with every kind wrong.
fn written_at_limits(random: &mut Random, visit: &mut impl FnMut(Case)) {
    let (filters, frames) = (filter_entries(MOST_FILTERS + 2, random), frame_entries(MOST_FRAMES + 2, random));
    for wrong_kinds in [false, true] {
        for filters_length in lengths_at_limit(FILTER_LENGTH, MOST_FILTERS) {
            for frames_length in lengths_at_limit(FRAME_LENGTH, MOST_FRAMES) {
                let mut filters = filters[..filters_length].to_vec();
                if wrong_kinds {
                    filters.iter_mut().step_by(FILTER_LENGTH).for_each(|kind| *kind = 2);
                }
                write(filters, frames[..frames_length].to_vec(), random, visit);
            }
        }
    }
}

fn lengths_at_limit(entry: usize, most: usize) -> [usize; 6] {
    let (limit, above) = (entry * most, entry * (most + 1));
    [0, limit - 1, limit, limit + 1, above, above + 1]
}

fn read_and_report(file: Vec<u8>, random: &mut Random, visit: &mut impl FnMut(Case)) {
    let room = random_room(report(&file).len(), random);
    visit(Case::File(FileCall::Read { file: file.clone() }));
    visit(Case::File(FileCall::Report { file, room }));
}

fn write(filters: Vec<u8>, frames: Vec<u8>, random: &mut Random, visit: &mut impl FnMut(Case)) {
    let room = random_room(3 + filters.len() + frames.len(), random);
    visit(Case::File(FileCall::Write { filters, frames, room }));
}

/// Half of them unspoilt.
fn random_writing(random: &mut Random, visit: &mut impl FnMut(Case)) {
    let mut filters = filter_entries(random.below(MOST_FILTERS as u64 + 1) as usize, random);
    let mut frames = frame_entries([0, 1, 2, random.below(40) as usize][random.below(4) as usize], random);
    match random.below(8) {
        0 => spoil_length(&mut filters, random),
        1 => spoil_length(&mut frames, random),
        2 => filters.extend(filter_entries(MOST_FILTERS, random)),
        3 if !filters.is_empty() => {
            let entry = random.below((filters.len() / FILTER_LENGTH) as u64) as usize;
            filters[FILTER_LENGTH * entry] = random.word() as u8;
        }
        _ => {}
    }
    write(filters, frames, random, visit);
}

fn spoil_length(entries: &mut Vec<u8>, random: &mut Random) {
    let length = random.below(entries.len() as u64 + FRAME_LENGTH as u64) as usize;
    entries.resize(length, 0);
}

/// As long as needed, or about so, or anything shorter.
fn random_room(needed: usize, random: &mut Random) -> usize {
    match random.below(8) {
        0 => random.below(needed as u64) as usize,
        1 => needed - 1,
        2 | 3 => needed,
        _ => needed + random.below(20) as usize,
    }
}
