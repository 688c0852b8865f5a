//! Filters: their registers, made from patterns, from code and mask and from a list, and which frames they accept.
use crate::{FRAME_LENGTH, Format, Frame, REGISTERS_LENGTH, Result, raw, refusal::result};
use answer::Answer;

#[derive(Debug, Clone, Copy, PartialEq, Eq)]
#[repr(u8)]
pub enum Kind {
    Single = 0,
    Dual = 1,
}

#[derive(Debug, Clone, Copy, PartialEq, Eq)]
pub struct Filter {
    pub kind: Kind,
    pub registers: [u8; REGISTERS_LENGTH],
}

/// What a field must be, and where it must be so: at the ones of its mask.
#[derive(Debug, Clone, Copy, PartialEq, Eq)]
pub struct CodeMask<T> {
    pub code: T,
    pub mask: T,
}

/// The filter for a list, how many identifiers get through, and its identifier pattern.
#[derive(Debug, Clone, Copy, PartialEq, Eq)]
pub struct Listed {
    pub filter: Filter,
    pub through: u64,
    characters: [u8; 29],
    width: usize,
}

impl Listed {
    pub fn pattern(&self) -> &str {
        str::from_utf8(&self.characters[..self.width]).expect("a pattern is of the characters 0, 1 and x")
    }
}

impl Filter {
    /// Patterns of 11, 1, 8 and 8 characters.
    pub fn single_standard(id: &str, rtr: &str, first: &str, second: &str) -> Result<Self> {
        compiled(Kind::Single, |registers| unsafe {
            raw::chherbolat_single_standard_filter_new(
                id.as_ptr(),
                id.len(),
                rtr.as_ptr(),
                rtr.len(),
                first.as_ptr(),
                first.len(),
                second.as_ptr(),
                second.len(),
                registers,
                REGISTERS_LENGTH,
            )
        })
    }

    /// Patterns of 29 and 1 characters.
    pub fn single_extended(id: &str, rtr: &str) -> Result<Self> {
        compiled(Kind::Single, |registers| unsafe {
            raw::chherbolat_single_extended_filter_new(
                id.as_ptr(),
                id.len(),
                rtr.as_ptr(),
                rtr.len(),
                registers,
                REGISTERS_LENGTH,
            )
        })
    }

    /// Patterns of 11, 1, 8, 11 and 1 characters.
    pub fn dual_standard(
        first_id: &str,
        first_rtr: &str,
        first_payload: &str,
        second_id: &str,
        second_rtr: &str,
    ) -> Result<Self> {
        compiled(Kind::Dual, |registers| unsafe {
            raw::chherbolat_dual_standard_filter_new(
                first_id.as_ptr(),
                first_id.len(),
                first_rtr.as_ptr(),
                first_rtr.len(),
                first_payload.as_ptr(),
                first_payload.len(),
                second_id.as_ptr(),
                second_id.len(),
                second_rtr.as_ptr(),
                second_rtr.len(),
                registers,
                REGISTERS_LENGTH,
            )
        })
    }

    /// Patterns of 16 and 16 characters.
    pub fn dual_extended(first: &str, second: &str) -> Result<Self> {
        compiled(Kind::Dual, |registers| unsafe {
            raw::chherbolat_dual_extended_filter_new(
                first.as_ptr(),
                first.len(),
                second.as_ptr(),
                second.len(),
                registers,
                REGISTERS_LENGTH,
            )
        })
    }

    pub fn single_standard_from_code_mask(
        id: CodeMask<u16>,
        rtr: CodeMask<bool>,
        first: CodeMask<u8>,
        second: CodeMask<u8>,
    ) -> Result<Self> {
        compiled(Kind::Single, |registers| unsafe {
            raw::chherbolat_single_standard_filter_new_from_code_mask(
                id.code,
                id.mask,
                rtr.code,
                rtr.mask,
                first.code,
                second.code,
                first.mask,
                second.mask,
                registers,
                REGISTERS_LENGTH,
            )
        })
    }

    pub fn single_extended_from_code_mask(id: CodeMask<u32>, rtr: CodeMask<bool>) -> Result<Self> {
        compiled(Kind::Single, |registers| unsafe {
            raw::chherbolat_single_extended_filter_new_from_code_mask(
                id.code,
                id.mask,
                rtr.code,
                rtr.mask,
                registers,
                REGISTERS_LENGTH,
            )
        })
    }

    pub fn dual_standard_from_code_mask(
        first_id: CodeMask<u16>,
        first_rtr: CodeMask<bool>,
        first_payload: CodeMask<u8>,
        second_id: CodeMask<u16>,
        second_rtr: CodeMask<bool>,
    ) -> Result<Self> {
        compiled(Kind::Dual, |registers| unsafe {
            raw::chherbolat_dual_standard_filter_new_from_code_mask(
                first_id.code,
                first_id.mask,
                first_rtr.code,
                first_rtr.mask,
                first_payload.code,
                first_payload.mask,
                second_id.code,
                second_id.mask,
                second_rtr.code,
                second_rtr.mask,
                registers,
                REGISTERS_LENGTH,
            )
        })
    }

    pub fn dual_extended_from_code_mask(first: CodeMask<u16>, second: CodeMask<u16>) -> Result<Self> {
        compiled(Kind::Dual, |registers| unsafe {
            raw::chherbolat_dual_extended_filter_new_from_code_mask(
                first.code,
                second.code,
                first.mask,
                second.mask,
                registers,
                REGISTERS_LENGTH,
            )
        })
    }

    /// The single filter that lets all identifiers of the list through, and as little else as can be.
    pub fn from_list(format: Format, list: &[u32]) -> Result<Listed> {
        let (extended, width) = if format == Format::Extended { (true, 29) } else { (false, 11) };
        let mut characters = [0; 29];
        let mut registers = [0; REGISTERS_LENGTH];
        let through = result(unsafe {
            raw::chherbolat_filter_from_list(
                extended,
                list.as_ptr(),
                list.len(),
                characters.as_mut_ptr(),
                characters.len(),
                registers.as_mut_ptr(),
                REGISTERS_LENGTH,
            )
        })?;
        Ok(Listed { filter: Filter { kind: Kind::Single, registers }, through, characters, width })
    }

    pub fn accepts(&self, frame: &Frame) -> bool {
        let (registers, frame) = (self.registers.as_ptr(), frame.bytes().as_ptr());
        let answer = unsafe {
            raw::chherbolat_matcher_accepts(self.kind as u8, registers, REGISTERS_LENGTH, frame, FRAME_LENGTH)
        };
        result(answer).expect("a filter of a kind and a frame are not refused") == 1
    }
}

fn compiled(kind: Kind, compile: impl FnOnce(*mut u8) -> Answer) -> Result<Filter> {
    let mut registers = [0; REGISTERS_LENGTH];
    result(compile(registers.as_mut_ptr())).map(|_| Filter { kind, registers })
}
