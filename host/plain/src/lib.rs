//! What the driver has no counterpart for, in plain Rust as one writes it for speed and without proof: what ours is
//! counted against.
pub mod file;
pub mod list;
pub mod matcher;
pub mod report;
pub mod words;
