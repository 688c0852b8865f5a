//! Frames: their buffers of 13 bytes, built and read.
use crate::{ExtendedId, FRAME_LENGTH, Format, Id, Result, StandardId, raw, refusal::result};
use answer::Answer;

#[derive(Debug, Clone, Copy, PartialEq, Eq)]
pub struct Frame([u8; FRAME_LENGTH]);

impl Frame {
    /// A data frame.
    pub fn new(id: impl Into<Id>, data: &[u8]) -> Result<Self> {
        let (extended, id) = as_asked(id.into());
        built(|frame| unsafe { raw::chherbolat_new(extended, id, data.as_ptr(), data.len(), frame, FRAME_LENGTH) })
    }

    /// A data frame that its sender receives too.
    pub fn new_self_reception(id: impl Into<Id>, data: &[u8]) -> Result<Self> {
        let (extended, id) = as_asked(id.into());
        built(|frame| unsafe {
            raw::chherbolat_new_self_reception(extended, id, data.as_ptr(), data.len(), frame, FRAME_LENGTH)
        })
    }

    pub fn new_from_parameters(
        id: impl Into<Id>,
        remote_request: bool,
        self_reception: bool,
        dlc: usize,
        data: &[u8],
    ) -> Result<Self> {
        by(raw::chherbolat_new_from_parameters, id.into(), remote_request, self_reception, dlc, data)
    }

    /// By ISO 11898-1: a remote frame may have a code, 0 to 8, which asks for that many bytes.
    pub fn new_with_remote_length(
        id: impl Into<Id>,
        remote_request: bool,
        self_reception: bool,
        dlc: usize,
        data: &[u8],
    ) -> Result<Self> {
        by(raw::chherbolat_new_with_remote_length, id.into(), remote_request, self_reception, dlc, data)
    }

    /// Any 13 bytes are the buffer of a frame.
    pub fn from_bytes(bytes: [u8; FRAME_LENGTH]) -> Self {
        Frame(bytes)
    }

    pub fn bytes(&self) -> &[u8; FRAME_LENGTH] {
        &self.0
    }

    /// The bytes that are in use.
    pub fn as_slice(&self) -> &[u8] {
        let mut used = [0; FRAME_LENGTH];
        let (used, room) = (used.as_mut_ptr(), FRAME_LENGTH);
        let length = not_refused(unsafe { raw::chherbolat_as_slice(self.0.as_ptr(), FRAME_LENGTH, used, room) });
        &self.0[..length as usize]
    }

    pub fn data(&self) -> &[u8] {
        let data = &self.0[self.read(raw::chherbolat_data_offset) as usize..];
        &data[..self.data_length()]
    }

    pub fn is_extended_format(&self) -> bool {
        self.read(raw::chherbolat_is_extended_format) == 1
    }

    pub fn is_remote_request(&self) -> bool {
        self.read(raw::chherbolat_is_remote_request) == 1
    }

    pub fn is_self_reception(&self) -> bool {
        self.read(raw::chherbolat_is_self_reception) == 1
    }

    pub fn data_length_code(&self) -> usize {
        self.read(raw::chherbolat_data_length_code) as usize
    }

    pub fn data_length(&self) -> usize {
        self.read(raw::chherbolat_data_length) as usize
    }

    pub fn identifier(&self) -> Id {
        let raw = self.read(raw::chherbolat_identifier);
        if self.is_extended_format() {
            Id::Extended(ExtendedId(raw as u32))
        } else {
            Id::Standard(StandardId(raw as u16))
        }
    }

    fn read(&self, reader: unsafe extern "C" fn(*const u8, usize) -> Answer) -> u64 {
        not_refused(unsafe { reader(self.0.as_ptr(), FRAME_LENGTH) })
    }
}

type BuildBy = unsafe extern "C" fn(bool, u32, bool, bool, usize, *const u8, usize, *mut u8, usize) -> Answer;

fn by(build: BuildBy, id: Id, remote_request: bool, self_reception: bool, dlc: usize, data: &[u8]) -> Result<Frame> {
    let (extended, id) = as_asked(id);
    let (bytes, length) = (data.as_ptr(), data.len());
    built(|frame| unsafe {
        build(extended, id, remote_request, self_reception, dlc, bytes, length, frame, FRAME_LENGTH)
    })
}

fn as_asked(id: Id) -> (bool, u32) {
    (id.format() == Format::Extended, id.as_raw())
}

fn built(build: impl FnOnce(*mut u8) -> Answer) -> Result<Frame> {
    let mut frame = [0; FRAME_LENGTH];
    result(build(frame.as_mut_ptr())).map(|_| Frame(frame))
}

fn not_refused(answer: Answer) -> u64 {
    result(answer).expect("13 bytes are not refused")
}
