//! Refusals, with their numbers in the outline.
use answer::Answer;
use core::{error::Error, fmt};

#[derive(Debug, Clone, Copy, PartialEq, Eq)]
#[repr(u32)]
pub enum Refusal {
    IdentifierAboveLimit = 1,
    InvalidDataLength,
    NonCompliantDlc,
    PatternLength,
    PatternByte,
    OutputTooShort,
    FilterKind,
    DrainRuns,
    NoDrainRuns,
    BrokenState,
    FileEnds,
    CountAboveLimit,
    BytesAfterEnd,
    WrongLength,
    EmptyList,
}

impl Refusal {
    const ALL: [Refusal; 15] = [
        Refusal::IdentifierAboveLimit,
        Refusal::InvalidDataLength,
        Refusal::NonCompliantDlc,
        Refusal::PatternLength,
        Refusal::PatternByte,
        Refusal::OutputTooShort,
        Refusal::FilterKind,
        Refusal::DrainRuns,
        Refusal::NoDrainRuns,
        Refusal::BrokenState,
        Refusal::FileEnds,
        Refusal::CountAboveLimit,
        Refusal::BytesAfterEnd,
        Refusal::WrongLength,
        Refusal::EmptyList,
    ];

    pub fn number(self) -> u32 {
        self as u32
    }

    fn numbered(number: u32) -> Self {
        *Self::ALL.iter().find(|refusal| refusal.number() == number).expect("the outline has no such refusal")
    }
}

/// Why a call was refused, and what the refusal carries (0 where it carries nothing).
#[derive(Debug, Clone, Copy, PartialEq, Eq)]
pub struct Refused {
    pub refusal: Refusal,
    pub carries: u64,
}

/// A byte of a pattern that is none of its characters: which pattern, from 0, where in it, from 0, and what.
#[derive(Debug, Clone, Copy, PartialEq, Eq)]
pub struct PatternByte {
    pub field: u8,
    pub place: u8,
    pub found: u8,
}

impl Refused {
    /// What `PatternByte` carries.
    pub fn pattern_byte(self) -> Option<PatternByte> {
        let [.., field, place, found] = self.carries.to_be_bytes();
        (self.refusal == Refusal::PatternByte).then_some(PatternByte { field, place, found })
    }
}

pub type Result<T> = core::result::Result<T, Refused>;

impl fmt::Display for Refused {
    fn fmt(&self, f: &mut fmt::Formatter) -> fmt::Result {
        write!(f, "refused {}, carrying {}: {:?}", self.refusal.number(), self.carries, self.refusal)
    }
}

impl Error for Refused {}

pub(crate) fn refuse<T>(number: u32, carries: u64) -> Result<T> {
    Err(Refused { refusal: Refusal::numbered(number), carries })
}

pub(crate) fn result(answer: Answer) -> Result<u64> {
    if answer.is_refusal() { refuse(answer.number, answer.value) } else { Ok(answer.value) }
}
