//! Chherbolat for Rust: the functions of libchherbolat.a, which are proved, without `unsafe` for their users and without
//! `std`. What each gives and refuses stands in docs/ABI.md; `raw` has the functions as they are.
//!
//! Each `unsafe` block of this crate calls one of them with slices as `raw` asks for: a pointer of a Rust slice and that
//! slice's length, and what is written to is borrowed by the call alone.
#![no_std]

pub mod decision;
pub mod file;
mod filter;
mod frame;
mod identifier;
pub mod raw;
pub mod receive_box;
mod refusal;

pub use filter::{CodeMask, Filter, Kind, Listed};
pub use frame::Frame;
pub use identifier::{ExtendedId, Format, Id, StandardId};
pub use receive_box::ReceiveBox;
pub use refusal::{PatternByte, Refusal, Refused, Result};

pub const FRAME_LENGTH: usize = 13;
pub const REGISTERS_LENGTH: usize = 8;
