//! What one side does with a frame file.
use crate::{answer::Answer, case::FileCall, face::files::Files};

pub fn room(call: &FileCall) -> usize {
    match call {
        FileCall::Read { .. } => 0,
        FileCall::Write { room, .. } | FileCall::Report { room, .. } => *room,
    }
}

pub fn made(files: &Files, call: &FileCall, out: &mut [u8]) -> Answer {
    let (to, room) = (out.as_mut_ptr(), out.len());
    match call {
        FileCall::Read { file } => unsafe { (files.read_file)(file.as_ptr(), file.len()) },
        FileCall::Write { filters, frames, .. } => unsafe {
            (files.write_file)(filters.as_ptr(), filters.len(), frames.as_ptr(), frames.len(), to, room)
        },
        FileCall::Report { file, .. } => unsafe { (files.report)(file.as_ptr(), file.len(), to, room) },
    }
}
