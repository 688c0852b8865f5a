//! The rows of the four filter compilers.
use std::hint::black_box;

use oracle::{
    compiler::Compiler,
    face::filters::{Filters, REGISTERS_LENGTH},
};
use original::twai::{
    ExtendedId, StandardId,
    filter::{DualExtendedFilter, DualStandardFilter, Filter, SingleExtendedFilter, SingleStandardFilter},
};

use crate::repeat;

pub struct Row {
    pub name: &'static str,
    compiler: Compiler,
    given: Given,
}

#[derive(Clone, Copy)]
enum Given {
    /// The patterns joined, and more behind them where they are shorter.
    Patterns(&'static Text),
    Numbers,
}

type Text = [u8; 32];
const ALL_X: Given = Given::Patterns(&[b'x'; 32]);
const DIGITS: Given = Given::Patterns(b"01101001100101101001011001101001");
const MIX: Given = Given::Patterns(b"x10xx01x0x1101xx0x01xx10x1001xx0");

/// What the compilers take by code and mask; each takes the first ones.
struct Numbers {
    halves: [u16; 4],
    extended: [u32; 2],
    flags: [bool; 4],
    bytes: [u8; 4],
}

static NUMBERS: Numbers = Numbers {
    halves: [0x5A5, 0x7F0, 0x123, 0x0FF],
    extended: [0x1234_5678, 0x1FFF_0FFF],
    flags: [true, true, false, true],
    bytes: [0xA5, 0x3C, 0xFF, 0xF0],
};

const fn row(name: &'static str, compiler: Compiler, given: Given) -> Row {
    Row { name, compiler, given }
}

pub const ROWS: [Row; 16] = [
    row("filter single standard, all x", Compiler::SingleStandard, ALL_X),
    row("filter single standard, digits", Compiler::SingleStandard, DIGITS),
    row("filter single standard, mix", Compiler::SingleStandard, MIX),
    row("filter single standard, code and mask", Compiler::SingleStandard, Given::Numbers),
    row("filter single extended, all x", Compiler::SingleExtended, ALL_X),
    row("filter single extended, digits", Compiler::SingleExtended, DIGITS),
    row("filter single extended, mix", Compiler::SingleExtended, MIX),
    row("filter single extended, code and mask", Compiler::SingleExtended, Given::Numbers),
    row("filter dual standard, all x", Compiler::DualStandard, ALL_X),
    row("filter dual standard, digits", Compiler::DualStandard, DIGITS),
    row("filter dual standard, mix", Compiler::DualStandard, MIX),
    row("filter dual standard, code and mask", Compiler::DualStandard, Given::Numbers),
    row("filter dual extended, all x", Compiler::DualExtended, ALL_X),
    row("filter dual extended, digits", Compiler::DualExtended, DIGITS),
    row("filter dual extended, mix", Compiler::DualExtended, MIX),
    row("filter dual extended, code and mask", Compiler::DualExtended, Given::Numbers),
];

pub fn by_face(filters: &Filters, row: &Row, times: u64) {
    let mut registers = [0; REGISTERS_LENGTH];
    match row.given {
        Given::Patterns(text) => patterns_by_face(filters, row.compiler, text, &mut registers, times),
        Given::Numbers => numbers_by_face(filters, row.compiler, &mut registers, times),
    }
}

pub fn bare(row: &Row, times: u64) {
    match row.given {
        Given::Patterns(text) => patterns_bare(row.compiler, text, times),
        Given::Numbers => numbers_bare(row.compiler, times),
    }
}

fn patterns_by_face(filters: &Filters, compiler: Compiler, text: &Text, registers: &mut [u8], times: u64) {
    let (to, room) = (registers.as_mut_ptr(), registers.len());
    match compiler {
        Compiler::SingleStandard => repeat(times, || unsafe {
            let [id, rtr, first, second] = parts(text, [0, 11, 12, 20]);
            black_box((filters.single_standard_filter_new)(id, 11, rtr, 1, first, 8, second, 8, to, room));
        }),
        Compiler::SingleExtended => repeat(times, || unsafe {
            let [id, rtr] = parts(text, [0, 29]);
            black_box((filters.single_extended_filter_new)(id, 29, rtr, 1, to, room));
        }),
        Compiler::DualStandard => repeat(times, || unsafe {
            let [id, rtr, payload, second, other] = parts(text, [0, 11, 12, 20, 31]);
            let function = filters.dual_standard_filter_new;
            black_box(function(id, 11, rtr, 1, payload, 8, second, 11, other, 1, to, room));
        }),
        Compiler::DualExtended => repeat(times, || unsafe {
            let [first, second] = parts(text, [0, 16]);
            black_box((filters.dual_extended_filter_new)(first, 16, second, 16, to, room));
        }),
    }
}

fn numbers_by_face(filters: &Filters, compiler: Compiler, registers: &mut [u8], times: u64) {
    let (to, room) = (registers.as_mut_ptr(), registers.len());
    match compiler {
        Compiler::SingleStandard => repeat(times, || unsafe {
            let Numbers { halves: [code, mask, ..], flags, bytes, .. } = *black_box(&NUMBERS);
            let function = filters.single_standard_filter_new_from_code_mask;
            black_box(function(code, mask, flags[0], flags[1], bytes[0], bytes[1], bytes[2], bytes[3], to, room));
        }),
        Compiler::SingleExtended => repeat(times, || unsafe {
            let Numbers { extended: [code, mask], flags, .. } = *black_box(&NUMBERS);
            let function = filters.single_extended_filter_new_from_code_mask;
            black_box(function(code, mask, flags[0], flags[1], to, room));
        }),
        Compiler::DualStandard => repeat(times, || unsafe {
            let Numbers { halves: [code, mask, second, other], flags: [a, b, c, d], bytes, .. } = *black_box(&NUMBERS);
            let function = filters.dual_standard_filter_new_from_code_mask;
            black_box(function(code, mask, a, b, bytes[0], bytes[1], second, other, c, d, to, room));
        }),
        Compiler::DualExtended => repeat(times, || unsafe {
            let [first, second, first_mask, second_mask] = black_box(&NUMBERS).halves;
            let function = filters.dual_extended_filter_new_from_code_mask;
            black_box(function(first, second, first_mask, second_mask, to, room));
        }),
    }
}

fn patterns_bare(compiler: Compiler, text: &Text, times: u64) {
    match compiler {
        Compiler::SingleStandard => repeat(times, || {
            let text = black_box(text);
            let payload = [pattern::<12, 8>(text), pattern::<20, 8>(text)];
            black_box(
                SingleStandardFilter::new(pattern::<0, 11>(text), pattern::<11, 1>(text), payload).to_registers(),
            );
        }),
        Compiler::SingleExtended => repeat(times, || {
            let text = black_box(text);
            black_box(SingleExtendedFilter::new(pattern::<0, 29>(text), pattern::<29, 1>(text)).to_registers());
        }),
        Compiler::DualStandard => repeat(times, || {
            let text = black_box(text);
            let (id, rtr, payload) = (pattern::<0, 11>(text), pattern::<11, 1>(text), pattern::<12, 8>(text));
            let (second, other) = (pattern::<20, 11>(text), pattern::<31, 1>(text));
            black_box(DualStandardFilter::new(id, rtr, payload, second, other).to_registers());
        }),
        Compiler::DualExtended => repeat(times, || {
            let text = black_box(text);
            black_box(DualExtendedFilter::new([pattern::<0, 16>(text), pattern::<16, 16>(text)]).to_registers());
        }),
    }
}

#[inline(always)]
fn parts<const COUNT: usize>(text: &Text, places: [usize; COUNT]) -> [*const u8; COUNT] {
    let start = black_box(text).as_ptr();
    places.map(|place| start.wrapping_add(place))
}

#[inline(always)]
fn pattern<const AT: usize, const LENGTH: usize>(text: &Text) -> &[u8; LENGTH] {
    text[AT..AT + LENGTH].try_into().expect("as long as it was cut")
}

fn numbers_bare(compiler: Compiler, times: u64) {
    let standard = NUMBERS.halves.map(|raw| StandardId::new(raw).expect("within its limit"));
    let extended = NUMBERS.extended.map(|raw| ExtendedId::new(raw).expect("within its limit"));
    match compiler {
        Compiler::SingleStandard => repeat(times, || {
            let ([code, mask, ..], Numbers { flags, bytes, .. }) = (black_box(&standard), black_box(&NUMBERS));
            let ([first, second, first_mask, second_mask], [rtr_code, rtr_mask, ..]) = (*bytes, *flags);
            let (bytes, masks) = ([first, second], [first_mask, second_mask]);
            let filter = SingleStandardFilter::new_from_code_mask(*code, *mask, rtr_code, rtr_mask, bytes, masks);
            black_box(filter.to_registers());
        }),
        Compiler::SingleExtended => repeat(times, || {
            let ([code, mask], flags) = (*black_box(&extended), black_box(&NUMBERS).flags);
            black_box(SingleExtendedFilter::new_from_code_mask(code, mask, flags[0], flags[1]).to_registers());
        }),
        Compiler::DualStandard => repeat(times, || {
            let ([code, mask, second, other], numbers) = (*black_box(&standard), black_box(&NUMBERS));
            let ([a, b, c, d], bytes) = (numbers.flags, numbers.bytes);
            let make = DualStandardFilter::new_from_code_mask;
            black_box(make(code, mask, a, b, bytes[0], bytes[1], second, other, c, d).to_registers());
        }),
        Compiler::DualExtended => repeat(times, || {
            let [first, second, first_mask, second_mask] = black_box(&NUMBERS).halves;
            let filter = DualExtendedFilter::new_from_code_mask([first, second], [first_mask, second_mask]);
            black_box(filter.to_registers());
        }),
    }
}
