//! The filter compilers of the driver's side. It takes patterns whose lengths are types, so refusal 4 is the rule of
//! docs/ABI.md; it panics at a wrong byte, which is refusal 5 here, with the field, the place and the byte by the rule there.
use std::{
    panic::{self, catch_unwind},
    slice,
};

use original::twai::{
    ExtendedId, StandardId,
    filter::{DualExtendedFilter, DualStandardFilter, Filter, SingleExtendedFilter, SingleStandardFilter},
};

use crate::{
    answer::{Answer, IDENTIFIER_TOO_LARGE, PATTERN_BYTE, PATTERN_LENGTH, WRONG_SLICE_LENGTH},
    compiler::Compiler,
    face::filters::{Filters, REGISTERS_LENGTH},
};

pub const FILTERS: Filters = Filters {
    single_standard_filter_new,
    single_standard_filter_new_from_code_mask,
    single_extended_filter_new,
    single_extended_filter_new_from_code_mask,
    dual_standard_filter_new,
    dual_standard_filter_new_from_code_mask,
    dual_extended_filter_new,
    dual_extended_filter_new_from_code_mask,
};

unsafe extern "C" fn single_standard_filter_new(
    id: *const u8,
    id_length: usize,
    rtr: *const u8,
    rtr_length: usize,
    first: *const u8,
    first_length: usize,
    second: *const u8,
    second_length: usize,
    registers: *mut u8,
    registers_length: usize,
) -> Answer {
    let patterns = unsafe {
        [
            slice::from_raw_parts(id, id_length),
            slice::from_raw_parts(rtr, rtr_length),
            slice::from_raw_parts(first, first_length),
            slice::from_raw_parts(second, second_length),
        ]
    };
    let registers = unsafe { slice::from_raw_parts_mut(registers, registers_length) };
    compile(Compiler::SingleStandard, &patterns, registers)
}

unsafe extern "C" fn single_standard_filter_new_from_code_mask(
    id_code: u16,
    id_mask: u16,
    rtr_code: bool,
    rtr_mask: bool,
    first_code: u8,
    second_code: u8,
    first_mask: u8,
    second_mask: u8,
    registers: *mut u8,
    registers_length: usize,
) -> Answer {
    let registers = unsafe { slice::from_raw_parts_mut(registers, registers_length) };
    pack(registers, 8, || {
        let (code, mask) = (StandardId::new(id_code)?, StandardId::new(id_mask)?);
        let (payload_code, payload_mask) = ([first_code, second_code], [first_mask, second_mask]);
        Some(
            SingleStandardFilter::new_from_code_mask(code, mask, rtr_code, rtr_mask, payload_code, payload_mask)
                .to_registers(),
        )
    })
}

unsafe extern "C" fn single_extended_filter_new(
    id: *const u8,
    id_length: usize,
    rtr: *const u8,
    rtr_length: usize,
    registers: *mut u8,
    registers_length: usize,
) -> Answer {
    let patterns = unsafe { [slice::from_raw_parts(id, id_length), slice::from_raw_parts(rtr, rtr_length)] };
    let registers = unsafe { slice::from_raw_parts_mut(registers, registers_length) };
    compile(Compiler::SingleExtended, &patterns, registers)
}

unsafe extern "C" fn single_extended_filter_new_from_code_mask(
    id_code: u32,
    id_mask: u32,
    rtr_code: bool,
    rtr_mask: bool,
    registers: *mut u8,
    registers_length: usize,
) -> Answer {
    let registers = unsafe { slice::from_raw_parts_mut(registers, registers_length) };
    pack(registers, 4, || {
        let (code, mask) = (ExtendedId::new(id_code)?, ExtendedId::new(id_mask)?);
        Some(SingleExtendedFilter::new_from_code_mask(code, mask, rtr_code, rtr_mask).to_registers())
    })
}

unsafe extern "C" fn dual_standard_filter_new(
    first_id: *const u8,
    first_id_length: usize,
    first_rtr: *const u8,
    first_rtr_length: usize,
    first_payload: *const u8,
    first_payload_length: usize,
    second_id: *const u8,
    second_id_length: usize,
    second_rtr: *const u8,
    second_rtr_length: usize,
    registers: *mut u8,
    registers_length: usize,
) -> Answer {
    let patterns = unsafe {
        [
            slice::from_raw_parts(first_id, first_id_length),
            slice::from_raw_parts(first_rtr, first_rtr_length),
            slice::from_raw_parts(first_payload, first_payload_length),
            slice::from_raw_parts(second_id, second_id_length),
            slice::from_raw_parts(second_rtr, second_rtr_length),
        ]
    };
    let registers = unsafe { slice::from_raw_parts_mut(registers, registers_length) };
    compile(Compiler::DualStandard, &patterns, registers)
}

unsafe extern "C" fn dual_standard_filter_new_from_code_mask(
    first_id_code: u16,
    first_id_mask: u16,
    first_rtr_code: bool,
    first_rtr_mask: bool,
    first_payload_code: u8,
    first_payload_mask: u8,
    second_id_code: u16,
    second_id_mask: u16,
    second_rtr_code: bool,
    second_rtr_mask: bool,
    registers: *mut u8,
    registers_length: usize,
) -> Answer {
    let registers = unsafe { slice::from_raw_parts_mut(registers, registers_length) };
    pack(registers, 10, || {
        Some(
            DualStandardFilter::new_from_code_mask(
                StandardId::new(first_id_code)?,
                StandardId::new(first_id_mask)?,
                first_rtr_code,
                first_rtr_mask,
                first_payload_code,
                first_payload_mask,
                StandardId::new(second_id_code)?,
                StandardId::new(second_id_mask)?,
                second_rtr_code,
                second_rtr_mask,
            )
            .to_registers(),
        )
    })
}

unsafe extern "C" fn dual_extended_filter_new(
    first: *const u8,
    first_length: usize,
    second: *const u8,
    second_length: usize,
    registers: *mut u8,
    registers_length: usize,
) -> Answer {
    let patterns =
        unsafe { [slice::from_raw_parts(first, first_length), slice::from_raw_parts(second, second_length)] };
    let registers = unsafe { slice::from_raw_parts_mut(registers, registers_length) };
    compile(Compiler::DualExtended, &patterns, registers)
}

unsafe extern "C" fn dual_extended_filter_new_from_code_mask(
    first_code: u16,
    second_code: u16,
    first_mask: u16,
    second_mask: u16,
    registers: *mut u8,
    registers_length: usize,
) -> Answer {
    let registers = unsafe { slice::from_raw_parts_mut(registers, registers_length) };
    pack(registers, 4, || {
        Some(
            DualExtendedFilter::new_from_code_mask([first_code, second_code], [first_mask, second_mask]).to_registers(),
        )
    })
}

/// Keeps the panics that are answers here from being printed.
pub fn silence_refusals() {
    let print = panic::take_hook();
    panic::set_hook(Box::new(move |panic| {
        if !panic.to_string().contains("BitFilter bits must be") {
            print(panic);
        }
    }));
}

#[inline(always)]
fn compile(compiler: Compiler, patterns: &[&[u8]], registers: &mut [u8]) -> Answer {
    let Ok(registers) = <&mut [u8; REGISTERS_LENGTH]>::try_from(registers) else {
        return Answer::refuses(WRONG_SLICE_LENGTH, patterns.len() as u64);
    };
    let lengths = compiler.pattern_lengths();
    if let Some(field) = (0..lengths.len()).find(|field| patterns[*field].len() != lengths[*field]) {
        return Answer::refuses(PATTERN_LENGTH, field as u64);
    }
    match catch_unwind(|| unsafe { compiled(compiler, patterns) }) {
        Ok(made) => {
            *registers = made;
            Answer::gives(REGISTERS_LENGTH as u64)
        }
        Err(_) => Answer::refuses(PATTERN_BYTE, wrong_byte(patterns, first_wrong_place(compiler, patterns))),
    }
}

/// The patterns are as long as their fields: nothing tests it here, where the driver has types.
#[inline(always)]
unsafe fn compiled(compiler: Compiler, patterns: &[&[u8]]) -> [u8; REGISTERS_LENGTH] {
    let p = patterns;
    unsafe {
        match compiler {
            Compiler::SingleStandard => {
                SingleStandardFilter::new(array(p[0]), array(p[1]), [array(p[2]), array(p[3])]).to_registers()
            }
            Compiler::SingleExtended => SingleExtendedFilter::new(array(p[0]), array(p[1])).to_registers(),
            Compiler::DualStandard => {
                DualStandardFilter::new(array(p[0]), array(p[1]), array(p[2]), array(p[3]), array(p[4])).to_registers()
            }
            Compiler::DualExtended => DualExtendedFilter::new([array(p[0]), array(p[1])]).to_registers(),
        }
    }
}

#[inline(always)]
unsafe fn array<const LENGTH: usize>(pattern: &[u8]) -> &[u8; LENGTH] {
    debug_assert_eq!(pattern.len(), LENGTH);
    unsafe { &*pattern.as_ptr().cast() }
}

/// A panic tells no place: it is that of the last byte in the shortest beginning that panics with `x` after it.
#[cold]
fn first_wrong_place(compiler: Compiler, patterns: &[&[u8]]) -> usize {
    let joined = patterns.concat();
    let panics = |place: &usize| {
        let mut beginning = joined[..=*place].to_vec();
        beginning.resize(joined.len(), b'x');
        let patterns = compiler.split(&beginning);
        catch_unwind(|| unsafe { compiled(compiler, &patterns) }).is_err()
    };
    (0..joined.len()).find(panics).expect("the whole panics")
}

/// The rule of docs/ABI.md for a place in the fields joined: the field, the place in it and the byte, in one number.
#[cold]
fn wrong_byte(patterns: &[&[u8]], in_joined: usize) -> u64 {
    let mut place = in_joined;
    for (field, pattern) in patterns.iter().enumerate() {
        if let Some(byte) = pattern.get(place) {
            return (field as u64) << 16 | (place as u64) << 8 | u64::from(*byte);
        }
        place -= pattern.len();
    }
    unreachable!("the place is in one of the fields");
}

#[inline(always)]
fn pack(registers: &mut [u8], argument: u64, make: impl FnOnce() -> Option<[u8; REGISTERS_LENGTH]>) -> Answer {
    let Ok(registers) = <&mut [u8; REGISTERS_LENGTH]>::try_from(registers) else {
        return Answer::refuses(WRONG_SLICE_LENGTH, argument);
    };
    match make() {
        Some(made) => {
            *registers = made;
            Answer::gives(REGISTERS_LENGTH as u64)
        }
        None => Answer::refuses(IDENTIFIER_TOO_LARGE, 0),
    }
}
