//! The cases: a sample that reaches every branch, all combinations at the limits, and as many random ones as asked for.
use crate::{
    case::{Build, Case, Constructor, Read},
    face::{FRAME_LENGTH, filters::Filters},
    random::Random,
};

mod decisions;
mod files;
mod filters;
pub mod matcher;

/// Longer than any reader needs, to see that the rest stays.
pub const OUT_LENGTH: usize = 16;

/// The limits of both formats, of the bytes they are laid into and of u16, and their neighbours.
const IDENTIFIERS: [u32; 31] = [
    0,
    1,
    2,
    7,
    8,
    0xFF,
    0x100,
    0x3FF,
    0x400,
    0x555,
    0x7FE,
    0x7FF,
    0x800,
    0x801,
    0xFFFF,
    0x1_0000,
    0x1_0001,
    0x1_07FF,
    0x3_FFFF,
    0x4_0000,
    0x1F_FFFF,
    0x20_0000,
    0x0FFF_FFFF,
    0x1234_5678,
    0x1555_5555,
    0x1FFF_FFFE,
    0x1FFF_FFFF,
    0x2000_0000,
    0x2000_0001,
    0x8000_0000,
    u32::MAX,
];

fn data_lengths() -> impl Iterator<Item = usize> {
    (0..=20).chain(255..=264)
}

fn codes() -> impl Iterator<Item = usize> {
    (0..=40).chain([99, 255, 256, (1 << 32) + 8, usize::MAX])
}

/// Visits every case that is compared, with `count` random ones of each kind. The tables' compilers make filters to match.
pub fn all(count: u64, compilers: &[&Filters], visit: &mut impl FnMut(Case)) {
    sample(visit);
    identifiers(count, visit);
    builds_at_limits(visit);
    random_builds(count, &mut Random::from_seed(1), visit);
    remote_lengths_at_limits(visit);
    random_remote_lengths(count, visit);
    reads(count, visit);
    frames_of_wrong_length(visit);
    outputs_of_every_length(visit);
    filters::all(count, visit);
    matcher::all(count, compilers, visit);
    decisions::all(count, visit);
    files::all(count, visit);
}

/// Visits a few thousand cases that reach every branch.
pub fn sample(visit: &mut impl FnMut(Case)) {
    let random = &mut Random::from_seed(2);
    sample_identifiers(random, visit);
    sample_of_identifiers_built(random, visit);
    sample_of_lengths_built(random, visit);
    sample_of_codes_built(random, visit);
    random_builds(240, random, visit);
    for first in 0..=255 {
        for _ in 0..3 {
            visit(read(first, random));
        }
    }
    filters::sample(visit);
    matcher::sample(visit);
    decisions::sample(visit);
}

fn sample_identifiers(random: &mut Random, visit: &mut impl FnMut(Case)) {
    let powers = (0..32).flat_map(|bit| [1 << bit, (1 << bit) - 1]);
    let numbers = IDENTIFIERS.into_iter().chain(powers).chain((0..60).map(|_| random_number(random)));
    for number in numbers.collect::<Vec<u32>>() {
        visit(Case::StandardId(number as u16));
        visit(Case::ExtendedId(number));
        visit(Case::BaseId(number));
    }
}

fn sample_of_identifiers_built(random: &mut Random, visit: &mut impl FnMut(Case)) {
    for id in IDENTIFIERS {
        for extended in [false, true] {
            for constructor in [Constructor::New, Constructor::NewSelfReception] {
                let length = random.below(9) as usize;
                visit(build(constructor, extended, id, random.bytes(length)));
            }
            for (remote_request, self_reception) in FLAGS {
                let length = if remote_request { 0 } else { random.below(9) as usize };
                let constructor = Constructor::NewFromParameters { remote_request, self_reception, dlc: length };
                visit(build(constructor, extended, id, random.bytes(length)));
            }
        }
    }
}

fn sample_of_lengths_built(random: &mut Random, visit: &mut impl FnMut(Case)) {
    for length in data_lengths() {
        for extended in [false, true] {
            let id = random.below(0x800) as u32;
            visit(build(Constructor::New, extended, id, random.bytes(length)));
            visit(build(Constructor::NewSelfReception, extended, id, random.bytes(length)));
            for remote_request in [false, true] {
                for dlc in [length, length + 1, length % 256, 8] {
                    let constructor = Constructor::NewFromParameters { remote_request, self_reception: extended, dlc };
                    visit(build(constructor, extended, id, random.bytes(length)));
                }
            }
        }
    }
}

fn sample_of_codes_built(random: &mut Random, visit: &mut impl FnMut(Case)) {
    for dlc in codes() {
        for extended in [false, true] {
            for (length, remote_request) in [(0, false), (0, true), (1, true), (7, false), (8, false), (9, false)] {
                let self_reception = random.one_in(2);
                let constructor = Constructor::NewFromParameters { remote_request, self_reception, dlc };
                visit(build(constructor, extended, random.below(0x800) as u32, random.bytes(length)));
            }
        }
    }
}

const FLAGS: [(bool, bool); 4] = [(false, false), (false, true), (true, false), (true, true)];

fn identifiers(count: u64, visit: &mut impl FnMut(Case)) {
    (0..=u16::MAX).for_each(|raw| visit(Case::StandardId(raw)));
    let random = &mut Random::from_seed(3);
    for _ in 0..count {
        let number = random_number(random);
        visit(Case::ExtendedId(number));
        visit(Case::BaseId(number));
    }
}

fn builds_at_limits(visit: &mut impl FnMut(Case)) {
    let random = &mut Random::from_seed(4);
    for extended in [false, true] {
        for id in IDENTIFIERS {
            for length in data_lengths() {
                visit(build(Constructor::New, extended, id, random.bytes(length)));
                visit(build(Constructor::NewSelfReception, extended, id, random.bytes(length)));
                for dlc in codes() {
                    for (remote_request, self_reception) in FLAGS {
                        let constructor = Constructor::NewFromParameters { remote_request, self_reception, dlc };
                        visit(build(constructor, extended, id, random.bytes(length)));
                    }
                }
            }
        }
    }
}

/// Mostly frames that are accepted, by each of the three constructors.
fn random_builds(count: u64, random: &mut Random, visit: &mut impl FnMut(Case)) {
    for _ in 0..count {
        let extended = random.one_in(2);
        let id = random_identifier(extended, random);
        let length = if random.one_in(16) { random.below(300) } else { random.below(9) } as usize;
        let data = random.bytes(length);
        let constructor = Constructor::NewFromParameters {
            remote_request: random.one_in(6),
            self_reception: random.one_in(2),
            dlc: random_code(length, random),
        };
        for constructor in [constructor, Constructor::New, Constructor::NewSelfReception] {
            visit(build(constructor, extended, id, data.clone()));
        }
    }
}

/// In the second way of building: every length with every code, remote or not, at a few identifiers.
fn remote_lengths_at_limits(visit: &mut impl FnMut(Case)) {
    let random = &mut Random::from_seed(8);
    for extended in [false, true] {
        for id in [0, 0x123, 0x7FF, 0x800, 0x1FFF_FFFF, 0x2000_0000] {
            for length in data_lengths() {
                for dlc in codes() {
                    for (remote_request, self_reception) in FLAGS {
                        let constructor = Constructor::NewWithRemoteLength { remote_request, self_reception, dlc };
                        visit(build(constructor, extended, id, random.bytes(length)));
                    }
                }
            }
        }
    }
}

/// Half of them remote, most of these without data and with a code about the limit.
fn random_remote_lengths(count: u64, visit: &mut impl FnMut(Case)) {
    let random = &mut Random::from_seed(9);
    for _ in 0..count {
        let extended = random.one_in(2);
        let id = random_identifier(extended, random);
        let remote_request = random.one_in(2);
        let length = if remote_request && !random.one_in(8) { 0 } else { random.below(9) as usize };
        let dlc = if remote_request { random.below(12) as usize } else { random_code(length, random) };
        let self_reception = random.one_in(2);
        let constructor = Constructor::NewWithRemoteLength { remote_request, self_reception, dlc };
        visit(build(constructor, extended, id, random.bytes(length)));
    }
}

fn reads(count: u64, visit: &mut impl FnMut(Case)) {
    let random = &mut Random::from_seed(5);
    for turn in 0..count {
        visit(read(turn as u8, random));
    }
}

/// Refusal 14 comes before all else: the other arguments are each sound and each refused.
fn frames_of_wrong_length(visit: &mut impl FnMut(Case)) {
    let random = &mut Random::from_seed(6);
    for wrong in (0..=40).filter(|length| *length != FRAME_LENGTH) {
        for (id, length, dlc) in [(5, 3, 3), (u32::MAX, 3, 3), (5, 9, 9), (5, 3, 16)] {
            let parameters = Constructor::NewFromParameters { remote_request: false, self_reception: false, dlc };
            for constructor in [parameters, Constructor::New, Constructor::NewSelfReception] {
                let (extended, data) = (random.one_in(2), random.bytes(length));
                visit(Case::Build(Build { constructor, extended, id, data, room: wrong }));
            }
        }
        for (id, remote_request, dlc) in [(5, true, 8), (u32::MAX, true, 8), (5, true, 9), (5, false, 0)] {
            let constructor = Constructor::NewWithRemoteLength { remote_request, self_reception: false, dlc };
            visit(Case::Build(Build { constructor, extended: false, id, data: Vec::new(), room: wrong }));
        }
        for room in 0..=OUT_LENGTH {
            visit(Case::Read(Read { frame: random.bytes(wrong), room }));
        }
    }
}

fn outputs_of_every_length(visit: &mut impl FnMut(Case)) {
    let random = &mut Random::from_seed(7);
    for first in 0..=255 {
        for room in 0..=OUT_LENGTH {
            visit(Case::Read(Read { frame: frame(first, random), room }));
        }
    }
}

fn build(constructor: Constructor, extended: bool, id: u32, data: Vec<u8>) -> Case {
    Case::Build(Build { constructor, extended, id, data, room: FRAME_LENGTH })
}

fn read(first: u8, random: &mut Random) -> Case {
    Case::Read(Read { frame: frame(first, random), room: OUT_LENGTH })
}

fn frame(first: u8, random: &mut Random) -> Vec<u8> {
    let mut frame = random.bytes(FRAME_LENGTH);
    frame[0] = first;
    frame
}

/// A number of any size up to 32 bits, each size about as often.
fn random_number(random: &mut Random) -> u32 {
    random.word() as u32 >> random.below(32)
}

fn random_identifier(extended: bool, random: &mut Random) -> u32 {
    let limit = if extended { 0x1FFF_FFFF } else { 0x7FF };
    if random.one_in(16) { random_number(random) } else { random.word() as u32 & limit }
}

fn random_code(length: usize, random: &mut Random) -> usize {
    match random.below(16) {
        0 => random.word() as usize,
        1 | 2 => random.below(20) as usize,
        _ if length == 8 => 8 + random.below(8) as usize,
        _ => length,
    }
}
