//! The reader and the writer of frame files.
use crate::matcher::Filter;

pub const MOST_FILTERS: usize = 16;
pub const MOST_FRAMES: usize = 4096;

pub const FILTER_LENGTH: usize = 9;
const FRAME_LENGTH: usize = 13;

pub type Frame = [u8; FRAME_LENGTH];

pub struct File<'a> {
    pub filters: Vec<Filter>,
    pub frames: &'a [Frame],
}

/// By an offset of the reader, or a section or an entry of the writer.
pub struct Refusal {
    pub number: u32,
    pub at: usize,
}

pub fn read(file: &[u8]) -> Result<File<'_>, Refusal> {
    let mut fields = Fields { rest: file, offset: 0 };
    let filters = read_filters(&mut fields)?;
    let frames = read_frames(&mut fields)?;
    if fields.rest.is_empty() { Ok(File { filters, frames }) } else { refuse(13, fields.offset) }
}

fn read_filters(fields: &mut Fields) -> Result<Vec<Filter>, Refusal> {
    let at = fields.offset;
    let [count] = *fields.next()?;
    if usize::from(count) > MOST_FILTERS {
        return refuse(12, at);
    }
    (0..count).map(|_| read_filter(fields)).collect()
}

fn read_filter(fields: &mut Fields) -> Result<Filter, Refusal> {
    let at = fields.offset;
    match *fields.next()? {
        [0] => Ok(Filter::new(false, fields.next()?)),
        [1] => Ok(Filter::new(true, fields.next()?)),
        [_] => refuse(7, at),
    }
}

fn read_frames<'a>(fields: &mut Fields<'a>) -> Result<&'a [Frame], Refusal> {
    let at = fields.offset;
    let count = usize::from(u16::from_be_bytes(*fields.next()?));
    if count > MOST_FRAMES {
        return refuse(12, at);
    }
    let (whole, _) = fields.rest.as_chunks();
    let frames = &whole[..count.min(whole.len())];
    fields.pass(frames.as_flattened().len());
    if frames.len() == count { Ok(frames) } else { refuse(11, fields.offset) }
}

/// What is still to be read.
struct Fields<'a> {
    rest: &'a [u8],
    offset: usize,
}

impl<'a> Fields<'a> {
    fn next<const LENGTH: usize>(&mut self) -> Result<&'a [u8; LENGTH], Refusal> {
        let Some(field) = self.rest.first_chunk() else {
            return refuse(11, self.offset);
        };
        self.pass(LENGTH);
        Ok(field)
    }

    fn pass(&mut self, length: usize) {
        self.rest = &self.rest[length..];
        self.offset += length;
    }
}

/// The file of these entries.
pub fn write(filters: &[u8], frames: &[u8]) -> Result<Vec<u8>, Refusal> {
    let (filters, part_of_filter) = filters.as_chunks::<FILTER_LENGTH>();
    let (frames, part_of_frame) = frames.as_chunks::<FRAME_LENGTH>();
    if !part_of_filter.is_empty() {
        return refuse(14, 0);
    }
    if !part_of_frame.is_empty() {
        return refuse(14, 1);
    }
    if filters.len() > MOST_FILTERS {
        return refuse(12, 0);
    }
    if frames.len() > MOST_FRAMES {
        return refuse(12, 1);
    }
    if let Some(entry) = filters.iter().position(|[kind, ..]| *kind > 1) {
        return refuse(7, entry);
    }
    let counts = (&[filters.len() as u8], &(frames.len() as u16).to_be_bytes());
    Ok([&counts.0[..], filters.as_flattened(), counts.1, frames.as_flattened()].concat())
}

fn refuse<T>(number: u32, at: usize) -> Result<T, Refusal> {
    Err(Refusal { number, at })
}
