//! One question for both sides.
use crate::compiler::Compiler;

#[derive(Debug, Clone, PartialEq, Eq)]
pub enum Case {
    StandardId(u16),
    ExtendedId(u32),
    /// The base identifier of an extended one.
    BaseId(u32),
    Build(Build),
    Read(Read),
    Patterns(Patterns),
    CodeMask(CodeMask),
    Match(Match),
    Decide(Decision),
    File(FileCall),
}

#[derive(Debug, Clone, PartialEq, Eq)]
pub struct Build {
    pub constructor: Constructor,
    pub extended: bool,
    pub id: u32,
    pub data: Vec<u8>,
    /// The length of the slice that is lent for the frame.
    pub room: usize,
}

#[derive(Debug, Clone, Copy, PartialEq, Eq)]
pub enum Constructor {
    NewFromParameters {
        remote_request: bool,
        self_reception: bool,
        dlc: usize,
    },
    /// The second way of building, which the driver lacks.
    NewWithRemoteLength {
        remote_request: bool,
        self_reception: bool,
        dlc: usize,
    },
    New,
    NewSelfReception,
}

impl Build {
    /// The same, asked for in the second way of building; none for the constructors that have no code to ask for.
    pub fn with_remote_length(&self) -> Option<Self> {
        match self.constructor {
            Constructor::NewFromParameters { remote_request, self_reception, dlc } => {
                let constructor = Constructor::NewWithRemoteLength { remote_request, self_reception, dlc };
                Some(Build { constructor, ..self.clone() })
            }
            _ => None,
        }
    }
}

/// Every reader, of one frame.
#[derive(Debug, Clone, PartialEq, Eq)]
pub struct Read {
    pub frame: Vec<u8>,
    /// The length of the slice that is lent for the bytes read.
    pub room: usize,
}

/// A filter by patterns.
#[derive(Debug, Clone, PartialEq, Eq)]
pub struct Patterns {
    pub compiler: Compiler,
    pub patterns: Vec<Vec<u8>>,
    /// The length of the slice that is lent for the registers.
    pub room: usize,
}

/// A filter by code and mask.
#[derive(Debug, Clone, PartialEq, Eq)]
pub struct CodeMask {
    pub compiler: Compiler,
    pub arguments: Vec<u32>,
    /// The length of the slice that is lent for the registers.
    pub room: usize,
}

/// A filter's registers against a frame.
#[derive(Debug, Clone, PartialEq, Eq)]
pub struct Match {
    pub kind: u8,
    pub registers: Vec<u8>,
    pub frame: Vec<u8>,
    /// What the characters say, where the registers were made from patterns for the frame's format.
    pub by_characters: Option<bool>,
}

/// A status word, and what else a decision asks.
#[derive(Debug, Clone, Copy, PartialEq, Eq)]
pub enum Decision {
    Transmit { status: u32, error_passive: bool },
    Poll { status: u32, error_passive: bool, in_flight: bool },
    Receive { status: u32 },
}

/// What is done with a frame file; with the length of the slice that is lent for what is written.
#[derive(Debug, Clone, PartialEq, Eq)]
pub enum FileCall {
    Read { file: Vec<u8> },
    Write { filters: Vec<u8>, frames: Vec<u8>, room: usize },
    Report { file: Vec<u8>, room: usize },
}
