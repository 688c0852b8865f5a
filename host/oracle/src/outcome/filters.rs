//! The call of a filter compiler that a case asks for.
use crate::{
    answer::Answer,
    case::{CodeMask, Patterns},
    compiler::Compiler,
    face::filters::Filters,
};

pub fn by_patterns(filters: &Filters, case: &Patterns, registers: &mut [u8]) -> Answer {
    let start = |field: usize| case.patterns[field].as_ptr();
    let length = |field: usize| case.patterns[field].len();
    let (to, room) = (registers.as_mut_ptr(), registers.len());
    match case.compiler {
        Compiler::SingleStandard => unsafe {
            let function = filters.single_standard_filter_new;
            function(start(0), length(0), start(1), length(1), start(2), length(2), start(3), length(3), to, room)
        },
        Compiler::SingleExtended => unsafe {
            (filters.single_extended_filter_new)(start(0), length(0), start(1), length(1), to, room)
        },
        Compiler::DualStandard => unsafe {
            (filters.dual_standard_filter_new)(
                start(0),
                length(0),
                start(1),
                length(1),
                start(2),
                length(2),
                start(3),
                length(3),
                start(4),
                length(4),
                to,
                room,
            )
        },
        Compiler::DualExtended => unsafe {
            (filters.dual_extended_filter_new)(start(0), length(0), start(1), length(1), to, room)
        },
    }
}

pub fn by_code_mask(filters: &Filters, case: &CodeMask, registers: &mut [u8]) -> Answer {
    let number = |place: usize| case.arguments[place];
    let half = |place: usize| case.arguments[place] as u16;
    let byte = |place: usize| case.arguments[place] as u8;
    let flag = |place: usize| case.arguments[place] != 0;
    let (to, room) = (registers.as_mut_ptr(), registers.len());
    match case.compiler {
        Compiler::SingleStandard => unsafe {
            let function = filters.single_standard_filter_new_from_code_mask;
            function(half(0), half(1), flag(2), flag(3), byte(4), byte(5), byte(6), byte(7), to, room)
        },
        Compiler::SingleExtended => unsafe {
            let function = filters.single_extended_filter_new_from_code_mask;
            function(number(0), number(1), flag(2), flag(3), to, room)
        },
        Compiler::DualStandard => unsafe {
            let function = filters.dual_standard_filter_new_from_code_mask;
            let (id, mask) = (half(6), half(7));
            function(half(0), half(1), flag(2), flag(3), byte(4), byte(5), id, mask, flag(8), flag(9), to, room)
        },
        Compiler::DualExtended => unsafe {
            let function = filters.dual_extended_filter_new_from_code_mask;
            function(half(0), half(1), half(2), half(3), to, room)
        },
    }
}
