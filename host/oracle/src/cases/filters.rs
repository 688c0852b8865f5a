//! The cases of the filter compilers.
use crate::{
    case::{Case, CodeMask, Patterns},
    compiler::{Argument, Compiler},
    face::filters::REGISTERS_LENGTH,
    random::Random,
};

const CHARACTERS: [u8; 3] = *b"01x";
/// The neighbours of the three characters, and the ends of a byte.
const WRONG_BYTES: [u8; 9] = [b'/', b'2', b'w', b'y', b'X', 0, 0x7F, 0x80, 0xFF];
const LONGEST_ROOM: usize = 20;

/// Visits every case that is compared and is not in the sample, `count` random ones among them.
pub fn all(count: u64, visit: &mut impl FnMut(Case)) {
    let random = &mut Random::from_seed(8);
    for compiler in Compiler::ALL {
        every_byte_at_every_place(compiler, random, visit);
        registers_of_every_length(compiler, random, visit);
    }
    random_filters(count, random, visit);
}

pub fn sample(visit: &mut impl FnMut(Case)) {
    let random = &mut Random::from_seed(9);
    for compiler in Compiler::ALL {
        sample_of_characters(compiler, visit);
        sample_of_wrong_bytes(compiler, random, visit);
        sample_of_wrong_lengths(compiler, random, visit);
        sample_of_bits(compiler, visit);
        sample_of_limits(compiler, random, visit);
    }
    random_filters(480, random, visit);
}

/// Every place with each character, all others alike.
fn sample_of_characters(compiler: Compiler, visit: &mut impl FnMut(Case)) {
    for others in CHARACTERS {
        let joined = vec![others; total_length(compiler)];
        visit(patterns(compiler, split(compiler, &joined)));
        for place in 0..joined.len() {
            for character in CHARACTERS {
                visit(patterns(compiler, split(compiler, &with(&joined, place, character))));
            }
        }
    }
}

/// Every place with a wrong byte, and with another wrong one somewhere.
fn sample_of_wrong_bytes(compiler: Compiler, random: &mut Random, visit: &mut impl FnMut(Case)) {
    for place in 0..total_length(compiler) {
        let joined = with(&random_characters(total_length(compiler), random), place, wrong_byte(random));
        visit(patterns(compiler, split(compiler, &joined)));
        let other = random.below(joined.len() as u64) as usize;
        visit(patterns(compiler, split(compiler, &with(&joined, other, wrong_byte(random)))));
    }
}

/// Every field with other lengths; with a wrong byte before it; with the last field wrong too.
fn sample_of_wrong_lengths(compiler: Compiler, random: &mut Random, visit: &mut impl FnMut(Case)) {
    for (field, length) in compiler.pattern_lengths().iter().enumerate() {
        for wrong in [0, length - 1, length + 1, 2 * length, 254] {
            let mut fields = split(compiler, &random_characters(total_length(compiler), random));
            fields[field] = random_characters(wrong, random);
            visit(patterns(compiler, fields.clone()));
            fields[0].fill(wrong_byte(random));
            visit(patterns(compiler, fields.clone()));
            fields.last_mut().unwrap().push(b'x');
            visit(patterns(compiler, fields));
        }
    }
}

/// Every bit of every argument turned over, where all are zero and where all are at their limits.
fn sample_of_bits(compiler: Compiler, visit: &mut impl FnMut(Case)) {
    let limits: Vec<u32> = compiler.arguments().iter().map(|argument| argument.limit()).collect();
    for others in [vec![0; limits.len()], limits] {
        visit(code_mask(compiler, others.clone()));
        for (place, argument) in compiler.arguments().iter().enumerate() {
            for bit in (0..32).map(|bit| 1 << bit).filter(|bit| *bit <= argument.largest()) {
                let mut arguments = others.clone();
                arguments[place] ^= bit;
                visit(code_mask(compiler, arguments));
            }
        }
    }
}

/// Every argument at its limit, beside it, and as large as can be, the others random and within theirs.
fn sample_of_limits(compiler: Compiler, random: &mut Random, visit: &mut impl FnMut(Case)) {
    for (place, argument) in compiler.arguments().iter().enumerate() {
        let (limit, largest) = (argument.limit(), argument.largest());
        for number in [limit - 1, limit, limit.saturating_add(1).min(largest), largest] {
            let mut arguments = random_arguments(compiler, random, Argument::limit);
            arguments[place] = number;
            visit(code_mask(compiler, arguments));
        }
    }
}

fn every_byte_at_every_place(compiler: Compiler, random: &mut Random, visit: &mut impl FnMut(Case)) {
    for place in 0..total_length(compiler) {
        for byte in 0..=255 {
            let joined = random_characters(total_length(compiler), random);
            visit(patterns(compiler, split(compiler, &with(&joined, place, byte))));
        }
    }
}

/// Refusal 14 comes before all else: the other arguments are each sound and each refused.
fn registers_of_every_length(compiler: Compiler, random: &mut Random, visit: &mut impl FnMut(Case)) {
    for room in 0..=LONGEST_ROOM {
        let sound = split(compiler, &random_characters(total_length(compiler), random));
        let (mut too_long, mut wrong) = (sound.clone(), sound.clone());
        too_long[1].push(b'x');
        wrong[1][0] = wrong_byte(random);
        for patterns in [sound, too_long, wrong] {
            visit(Case::Patterns(Patterns { compiler, patterns, room }));
        }
        for limit in [Argument::limit, Argument::largest] {
            let arguments = compiler.arguments().iter().map(|argument| limit(*argument)).collect();
            visit(Case::CodeMask(CodeMask { compiler, arguments, room }));
        }
    }
}

/// Half of them by patterns, half by code and mask; mostly such that are accepted.
fn random_filters(count: u64, random: &mut Random, visit: &mut impl FnMut(Case)) {
    for turn in 0..count / 2 {
        let compiler = Compiler::ALL[turn as usize % 4];
        visit(patterns(compiler, random_patterns(compiler, random)));
        let limit = if random.one_in(4) { Argument::largest } else { Argument::limit };
        visit(code_mask(compiler, random_arguments(compiler, random, limit)));
    }
}

fn random_patterns(compiler: Compiler, random: &mut Random) -> Vec<Vec<u8>> {
    let (wrong_lengths, wrong_bytes) = (random.one_in(8), random.one_in(6));
    let mut fields = split(compiler, &random_characters(total_length(compiler), random));
    for field in &mut fields {
        if wrong_lengths && random.one_in(3) {
            *field = random_characters(random.below(40) as usize, random);
        }
        for byte in field {
            if wrong_bytes && random.one_in(20) {
                *byte = random.word() as u8;
            }
        }
    }
    fields
}

/// Numbers up to a limit; those that may pass the argument's own do so now and then.
fn random_arguments(compiler: Compiler, random: &mut Random, limit: fn(Argument) -> u32) -> Vec<u32> {
    let number = |argument: &Argument| {
        let limit = if random.one_in(4) { limit(*argument) } else { argument.limit() };
        random.word() as u32 & limit
    };
    compiler.arguments().iter().map(number).collect()
}

fn random_characters(length: usize, random: &mut Random) -> Vec<u8> {
    (0..length).map(|_| CHARACTERS[random.below(3) as usize]).collect()
}

fn wrong_byte(random: &mut Random) -> u8 {
    WRONG_BYTES[random.below(WRONG_BYTES.len() as u64) as usize]
}

fn total_length(compiler: Compiler) -> usize {
    compiler.pattern_lengths().iter().sum()
}

fn split(compiler: Compiler, joined: &[u8]) -> Vec<Vec<u8>> {
    compiler.split(joined).into_iter().map(<[u8]>::to_vec).collect()
}

fn with(joined: &[u8], place: usize, byte: u8) -> Vec<u8> {
    let mut changed = joined.to_vec();
    changed[place] = byte;
    changed
}

fn patterns(compiler: Compiler, patterns: Vec<Vec<u8>>) -> Case {
    Case::Patterns(Patterns { compiler, patterns, room: REGISTERS_LENGTH })
}

fn code_mask(compiler: Compiler, arguments: Vec<u32>) -> Case {
    Case::CodeMask(CodeMask { compiler, arguments, room: REGISTERS_LENGTH })
}
