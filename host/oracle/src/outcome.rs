//! What one side does with a case: its answers, and every byte of what it was lent.
use crate::{
    answer::Answer,
    case::{Build, Case, Constructor, Decision, Match, Read},
    face::Face,
};

mod files;
pub mod filters;

/// What every lent byte holds before a call.
const FILL: u8 = 0xA5;
/// How many bytes stand behind a lent slice, to see a write past its end.
const BYTES_BEHIND: usize = 16;

#[derive(Debug, PartialEq, Eq)]
pub enum Outcome {
    Number(Answer),
    Built(Lending),
    Compiled(Lending),
    Read(Readings),
    Matched(Answer),
    Decided(Answer),
    Filed(Lending),
}

#[derive(Debug, PartialEq, Eq)]
pub struct Lending {
    pub answer: Answer,
    pub lent: Vec<u8>,
}

#[derive(Debug, PartialEq, Eq)]
pub struct Readings {
    pub extended: Answer,
    pub remote_request: Answer,
    pub self_reception: Answer,
    pub code: Answer,
    pub length: Answer,
    pub offset: Answer,
    pub identifier: Answer,
    pub data: Lending,
    pub used: Lending,
}

impl Outcome {
    pub fn of(face: &Face, case: &Case) -> Self {
        match case {
            Case::StandardId(raw) => Outcome::Number(unsafe { (face.standard_id_new)(*raw) }),
            Case::ExtendedId(raw) => Outcome::Number(unsafe { (face.extended_id_new)(*raw) }),
            Case::BaseId(raw) => Outcome::Number(unsafe { (face.extended_id_standard_id)(*raw) }),
            Case::Build(build) => Outcome::Built(Lending::of_build(face, build)),
            Case::Read(read) => Outcome::Read(Readings::of(face, read)),
            Case::Patterns(case) => Outcome::Compiled(Lending::of(case.room, |registers| {
                filters::by_patterns(&face.filters, case, registers)
            })),
            Case::CodeMask(case) => Outcome::Compiled(Lending::of(case.room, |registers| {
                filters::by_code_mask(&face.filters, case, registers)
            })),
            Case::Match(Match { kind, registers, frame, .. }) => Outcome::Matched(unsafe {
                (face.matcher_accepts)(*kind, registers.as_ptr(), registers.len(), frame.as_ptr(), frame.len())
            }),
            Case::Decide(decision) => Outcome::Decided(decided(face, *decision)),
            Case::File(call) => {
                Outcome::Filed(Lending::of(files::room(call), |out| files::made(&face.files, call, out)))
            }
        }
    }

    /// Whether each refusal left what was lent as it was.
    pub fn refusals_write_nothing(&self) -> bool {
        match self {
            Outcome::Number(_) | Outcome::Matched(_) | Outcome::Decided(_) => true,
            Outcome::Built(lending) | Outcome::Compiled(lending) | Outcome::Filed(lending) => {
                lending.refusal_writes_nothing()
            }
            Outcome::Read(readings) => readings.data.refusal_writes_nothing() && readings.used.refusal_writes_nothing(),
        }
    }
}

fn decided(face: &Face, decision: Decision) -> Answer {
    match decision {
        Decision::Transmit { status, error_passive } => unsafe { (face.transmit)(status, error_passive) },
        Decision::Poll { status, error_passive, in_flight } => unsafe { (face.poll)(status, error_passive, in_flight) },
        Decision::Receive { status } => unsafe { (face.receive)(status) },
    }
}

impl Lending {
    fn of(room: usize, call: impl FnOnce(&mut [u8]) -> Answer) -> Self {
        let mut lent = vec![FILL; room + BYTES_BEHIND];
        let answer = call(&mut lent[..room]);
        Lending { answer, lent }
    }

    fn of_build(face: &Face, build: &Build) -> Self {
        let Build { extended, id, ref data, room, .. } = *build;
        let (start, length) = (data.as_ptr(), data.len());
        Lending::of(room, |frame| {
            let (frame, room) = (frame.as_mut_ptr(), frame.len());
            match build.constructor {
                Constructor::NewFromParameters { remote_request, self_reception, dlc } => unsafe {
                    let function = face.new_from_parameters;
                    function(extended, id, remote_request, self_reception, dlc, start, length, frame, room)
                },
                Constructor::NewWithRemoteLength { remote_request, self_reception, dlc } => unsafe {
                    let function = face.new_with_remote_length;
                    function(extended, id, remote_request, self_reception, dlc, start, length, frame, room)
                },
                Constructor::New => unsafe { (face.new)(extended, id, start, length, frame, room) },
                Constructor::NewSelfReception => unsafe {
                    (face.new_self_reception)(extended, id, start, length, frame, room)
                },
            }
        })
    }

    fn refusal_writes_nothing(&self) -> bool {
        !self.answer.is_refusal() || self.lent.iter().all(|byte| *byte == FILL)
    }
}

impl Readings {
    fn of(face: &Face, read: &Read) -> Self {
        let (start, length) = (read.frame.as_ptr(), read.frame.len());
        Readings {
            extended: unsafe { (face.is_extended_format)(start, length) },
            remote_request: unsafe { (face.is_remote_request)(start, length) },
            self_reception: unsafe { (face.is_self_reception)(start, length) },
            code: unsafe { (face.data_length_code)(start, length) },
            length: unsafe { (face.data_length)(start, length) },
            offset: unsafe { (face.data_offset)(start, length) },
            identifier: unsafe { (face.identifier)(start, length) },
            data: Lending::of(read.room, |out| unsafe { (face.data)(start, length, out.as_mut_ptr(), out.len()) }),
            used: Lending::of(read.room, |out| unsafe { (face.as_slice)(start, length, out.as_mut_ptr(), out.len()) }),
        }
    }
}
