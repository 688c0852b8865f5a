//! Frame files: read, written and reported on. Each output is lent, and the part that was written is given back.
use crate::{Result, raw, refusal::result};

/// Where a file's sections are: filters of 9 bytes, a kind and its registers, and frames of 13.
#[derive(Debug, Clone, Copy, PartialEq, Eq)]
pub struct Sections {
    pub filters: u16,
    pub frames: u16,
    pub filters_start: u16,
    pub frames_start: u16,
}

pub fn read(file: &[u8]) -> Result<Sections> {
    let value = result(unsafe { raw::chherbolat_read_file(file.as_ptr(), file.len()) })?;
    let field = |place: u32| (value >> (16 * place)) as u16;
    Ok(Sections { filters: field(0), frames: field(1), filters_start: field(2), frames_start: field(3) })
}

pub fn write<'a>(filters: &[u8], frames: &[u8], out: &'a mut [u8]) -> Result<&'a [u8]> {
    let length = result(unsafe {
        raw::chherbolat_write_file(
            filters.as_ptr(),
            filters.len(),
            frames.as_ptr(),
            frames.len(),
            out.as_mut_ptr(),
            out.len(),
        )
    })?;
    Ok(&out[..length as usize])
}

/// A file that is refused is reported on too: the text says so.
pub fn report<'a>(file: &[u8], out: &'a mut [u8]) -> Result<&'a str> {
    let length =
        result(unsafe { raw::chherbolat_report(file.as_ptr(), file.len(), out.as_mut_ptr(), out.len()) })? as usize;
    Ok(str::from_utf8(&out[..length]).expect("a report is plain text"))
}
