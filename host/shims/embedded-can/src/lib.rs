//! `embedded-can`: the names that the driver uses.
use std::fmt::Debug;

pub trait Error: Debug {
    fn kind(&self) -> ErrorKind;
}

#[derive(Debug, Copy, Clone, Eq, PartialEq)]
pub enum ErrorKind {
    Overrun,
    Bit,
    Stuff,
    Crc,
    Form,
    Acknowledge,
    Other,
}

#[derive(Debug, Copy, Clone, Eq, PartialEq)]
pub struct StandardId(u16);

impl StandardId {
    pub fn new(raw: u16) -> Option<Self> {
        (raw < 1 << 11).then_some(StandardId(raw))
    }

    pub fn as_raw(&self) -> u16 {
        self.0
    }
}

#[derive(Debug, Copy, Clone, Eq, PartialEq)]
pub struct ExtendedId(u32);

impl ExtendedId {
    pub fn new(raw: u32) -> Option<Self> {
        (raw < 1 << 29).then_some(ExtendedId(raw))
    }

    pub fn as_raw(&self) -> u32 {
        self.0
    }
}

#[derive(Debug, Copy, Clone, Eq, PartialEq)]
pub enum Id {
    Standard(StandardId),
    Extended(ExtendedId),
}

pub trait Frame: Sized {
    fn new(id: impl Into<Id>, data: &[u8]) -> Option<Self>;
    fn new_remote(id: impl Into<Id>, dlc: usize) -> Option<Self>;
    fn is_extended(&self) -> bool;
    fn is_remote_frame(&self) -> bool;
    fn id(&self) -> Id;
    fn dlc(&self) -> usize;
    fn data(&self) -> &[u8];
}

pub mod nb {
    pub trait Can {
        type Frame: crate::Frame;
        type Error: crate::Error;
        fn transmit(&mut self, frame: &Self::Frame) -> ::nb::Result<Option<Self::Frame>, Self::Error>;
        fn receive(&mut self) -> ::nb::Result<Self::Frame, Self::Error>;
    }
}
