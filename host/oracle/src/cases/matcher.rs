//! The cases of the matcher.
use original::twai::probe;

use crate::{
    case::{Case, Match, Patterns},
    characters,
    compiler::Compiler,
    driver::filters::FILTERS,
    face::{
        FRAME_LENGTH,
        filters::{Filters, REGISTERS_LENGTH},
    },
    outcome::filters::by_patterns,
    random::Random,
};

const LONGEST_SLICE: usize = 40;

/// Visits every case that is compared and is not in the sample: `count` random ones, with registers of any origin, and as
/// many from patterns, made by each table's compilers in turn.
pub fn all(count: u64, compilers: &[&Filters], visit: &mut impl FnMut(Case)) {
    let random = &mut Random::from_seed(10);
    every_kind(random, visit);
    slices_of_every_length(random, visit);
    for turn in 0..count {
        let filters = compilers[turn as usize % compilers.len()];
        visit(any_registers(filters, random));
        visit(registers_from_patterns(filters, random));
    }
}

pub fn sample(visit: &mut impl FnMut(Case)) {
    let random = &mut Random::from_seed(11);
    every_position_alone(random, visit);
    for kind in [2, 3, 0x80, 0xFF] {
        visit(matching(kind, random.bytes(REGISTERS_LENGTH), random.bytes(FRAME_LENGTH)));
    }
    for _ in 0..150 {
        visit(any_registers(&FILTERS, random));
        visit(registers_from_patterns(&FILTERS, random));
    }
}

/// One position compared; in a dual filter twelve of the other half too, with a code that hardly fits there.
fn every_position_alone(random: &mut Random, visit: &mut impl FnMut(Case)) {
    for position in 0..32 {
        for extended in [false, true] {
            let (compared, code) = (1 << position, random.word() as u32);
            let frame = random_frame(extended, random);
            visit(matching(0, words(code, !compared), frame.clone()));
            visit(matching(0, words(!code, !compared), frame.clone()));
            let in_second_half = position < 16 && (extended || position > 3);
            let other_half: u32 = if in_second_half { 0xFFF0_0000 } else { 0x0000_FFF0 };
            visit(matching(1, words(code, !(compared | other_half)), frame));
        }
    }
}

fn every_kind(random: &mut Random, visit: &mut impl FnMut(Case)) {
    for kind in 0..=255 {
        for extended in [false, true] {
            visit(matching(kind, mostly_ones(random), random_frame(extended, random)));
        }
    }
}

/// Refusal 14 comes before all else, that of the registers first; sound kinds and others.
fn slices_of_every_length(random: &mut Random, visit: &mut impl FnMut(Case)) {
    for registers in 0..=LONGEST_SLICE {
        for frame in 0..=LONGEST_SLICE {
            for kind in [0, 1, 2, 255] {
                visit(matching(kind, random.bytes(registers), random.bytes(frame)));
            }
        }
    }
}

fn any_registers(filters: &Filters, random: &mut Random) -> Case {
    let frame = random_frame(random.one_in(2), random);
    let registers = match random.below(4) {
        0 => random_filter(filters, random),
        1 => mostly_ones(random),
        2 => words(random.word() as u32, !(1 << random.below(32))),
        _ => {
            let dual = random.one_in(2);
            let mut registers = fitting(filters, dual, &frame, random).registers;
            disturb(&mut registers, random);
            return matching(u8::from(dual), registers, frame);
        }
    };
    matching(random.below(2) as u8, registers, frame)
}

fn registers_from_patterns(filters: &Filters, random: &mut Random) -> Case {
    let frame = random_frame(random.one_in(2), random);
    let dual = random.one_in(2);
    let Fitting { registers, by_characters } = fitting(filters, dual, &frame, random);
    Case::Match(Match { kind: u8::from(dual), registers, frame, by_characters: Some(by_characters) })
}

/// Any first byte of this format, mostly no remote frame, half of them short, with bytes behind the data.
pub fn random_frame(extended: bool, random: &mut Random) -> Vec<u8> {
    let mut frame = random.bytes(FRAME_LENGTH);
    frame[0] = frame[0] & 0x7F | u8::from(extended) << 7;
    if !random.one_in(4) {
        frame[0] &= 0xBF;
    }
    if random.one_in(2) {
        frame[0] = frame[0] & 0xF0 | random.below(3) as u8;
    }
    frame
}

struct Fitting {
    registers: Vec<u8>,
    by_characters: bool,
}

/// A filter for the frame's format from the frame's own characters, `0` for one that it lacks, some of them `x`; half of its
/// halves with mistakes.
fn fitting(filters: &Filters, dual: bool, frame: &[u8], random: &mut Random) -> Fitting {
    let frame = probe::as_frame(frame.try_into().expect("as long as a frame"));
    let compiler = Compiler::of(dual, probe::is_extended_format(frame));
    let shown = characters::shown(compiler, frame);
    let mut patterns = shown.clone();
    let one_kept_of = 1 + random.below(8);
    for half in compiler.halves() {
        let mistakes = random.one_in(2);
        for character in patterns[half].iter_mut().flatten() {
            if *character == characters::MISSING {
                *character = b'0';
            }
            if !random.one_in(one_kept_of) {
                *character = b'x';
            } else if mistakes && random.one_in(6) {
                *character ^= b'0' ^ b'1';
            }
        }
    }
    let by_characters = characters::fit(compiler, &patterns, &shown);
    Fitting { registers: compiled(filters, compiler, patterns), by_characters }
}

/// Of any compiler, so of either format and kind, with few characters that are not `x`.
pub fn random_filter(filters: &Filters, random: &mut Random) -> Vec<u8> {
    let compiler = Compiler::ALL[random.below(4) as usize];
    let one_kept_of = 4 + random.below(16);
    let mut character = || if random.one_in(one_kept_of) { b"01"[random.below(2) as usize] } else { b'x' };
    let pattern = |length: &usize| (0..*length).map(|_| character()).collect();
    compiled(filters, compiler, compiler.pattern_lengths().iter().map(pattern).collect())
}

/// Left at zero by a compiler that refuses sound patterns.
fn compiled(filters: &Filters, compiler: Compiler, patterns: Vec<Vec<u8>>) -> Vec<u8> {
    let mut registers = vec![0; REGISTERS_LENGTH];
    by_patterns(filters, &Patterns { compiler, patterns, room: REGISTERS_LENGTH }, &mut registers);
    registers
}

/// Compares at positions that a format leaves unnamed, or turns one bit over, or does neither.
fn disturb(registers: &mut [u8], random: &mut Random) {
    match random.below(4) {
        0 => {
            let (code, mask) = (random.word() as u32 & 0x000F_0003, !(random.word() as u32 & 0x000F_0003));
            let asked = words(code, mask);
            registers[..4].iter_mut().zip(&asked[..4]).for_each(|(byte, code)| *byte ^= code);
            registers[4..].iter_mut().zip(&asked[4..]).for_each(|(byte, mask)| *byte &= mask);
        }
        1 => registers[random.below(8) as usize] ^= 1 << random.below(8),
        _ => {}
    }
}

pub fn mostly_ones(random: &mut Random) -> Vec<u8> {
    let mask = (0..=random.below(5)).fold(0, |mask, _| mask | random.word() as u32);
    words(random.word() as u32, mask)
}

fn words(code: u32, mask: u32) -> Vec<u8> {
    [code.to_be_bytes(), mask.to_be_bytes()].concat()
}

fn matching(kind: u8, registers: Vec<u8>, frame: Vec<u8>) -> Case {
    Case::Match(Match { kind, registers, frame, by_characters: None })
}
