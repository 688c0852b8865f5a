//! What every function answers, and the refusals that the driver's side knows (docs/ABI.md).
pub use ::answer::Answer;

pub const IDENTIFIER_TOO_LARGE: u32 = 1;
pub const INVALID_DATA_LENGTH: u32 = 2;
pub const NON_COMPLIANT_CODE: u32 = 3;
pub const PATTERN_LENGTH: u32 = 4;
pub const PATTERN_BYTE: u32 = 5;
pub const OUTPUT_TOO_SHORT: u32 = 6;
pub const FILTER_KIND: u32 = 7;
pub const WRONG_SLICE_LENGTH: u32 = 14;
