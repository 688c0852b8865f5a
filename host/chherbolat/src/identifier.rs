//! Identifiers: one that is here is within its limit.
use crate::{Result, raw, refusal::result};

#[derive(Debug, Clone, Copy, PartialEq, Eq)]
pub enum Format {
    Standard,
    Extended,
}

#[derive(Debug, Clone, Copy, PartialEq, Eq)]
pub struct StandardId(pub(crate) u16);

#[derive(Debug, Clone, Copy, PartialEq, Eq)]
pub struct ExtendedId(pub(crate) u32);

#[derive(Debug, Clone, Copy, PartialEq, Eq)]
pub enum Id {
    Standard(StandardId),
    Extended(ExtendedId),
}

impl StandardId {
    pub fn new(raw: u16) -> Result<Self> {
        result(unsafe { raw::chherbolat_standard_id_new(raw) }).map(|_| StandardId(raw))
    }

    pub fn as_raw(self) -> u16 {
        self.0
    }
}

impl ExtendedId {
    pub fn new(raw: u32) -> Result<Self> {
        result(unsafe { raw::chherbolat_extended_id_new(raw) }).map(|_| ExtendedId(raw))
    }

    pub fn as_raw(self) -> u32 {
        self.0
    }

    /// The top 11 of its 29 bits.
    pub fn standard_id(self) -> StandardId {
        let top = result(unsafe { raw::chherbolat_extended_id_standard_id(self.0) });
        StandardId(top.expect("an identifier within its limit is not refused") as u16)
    }
}

impl Id {
    pub fn format(self) -> Format {
        match self {
            Id::Standard(_) => Format::Standard,
            Id::Extended(_) => Format::Extended,
        }
    }

    pub fn as_raw(self) -> u32 {
        match self {
            Id::Standard(id) => u32::from(id.0),
            Id::Extended(id) => id.0,
        }
    }
}

impl From<StandardId> for Id {
    fn from(id: StandardId) -> Self {
        Id::Standard(id)
    }
}

impl From<ExtendedId> for Id {
    fn from(id: ExtendedId) -> Self {
        Id::Extended(id)
    }
}
