//! The four filter compilers, and what each is given (docs/ABI.md).
use std::ops::Range;

#[derive(Debug, Clone, Copy, PartialEq, Eq)]
pub enum Compiler {
    SingleStandard,
    SingleExtended,
    DualStandard,
    DualExtended,
}

/// One number among those that a compiler takes by code and mask.
#[derive(Debug, Clone, Copy, PartialEq, Eq)]
pub enum Argument {
    StandardId,
    ExtendedId,
    HalfId,
    Flag,
    Byte,
}

impl Compiler {
    pub const ALL: [Compiler; 4] =
        [Compiler::SingleStandard, Compiler::SingleExtended, Compiler::DualStandard, Compiler::DualExtended];

    #[inline]
    pub const fn pattern_lengths(self) -> &'static [usize] {
        match self {
            Compiler::SingleStandard => &[11, 1, 8, 8],
            Compiler::SingleExtended => &[29, 1],
            Compiler::DualStandard => &[11, 1, 8, 11, 1],
            Compiler::DualExtended => &[16, 16],
        }
    }

    /// The compiler for a kind and a format.
    pub fn of(dual: bool, extended: bool) -> Self {
        Compiler::ALL[2 * usize::from(dual) + usize::from(extended)]
    }

    /// The patterns of each half; a single filter is one half.
    pub fn halves(self) -> Vec<Range<usize>> {
        match self {
            Compiler::SingleStandard => vec![0..4],
            Compiler::SingleExtended => vec![0..2],
            Compiler::DualStandard => vec![0..3, 3..5],
            Compiler::DualExtended => vec![0..1, 1..2],
        }
    }

    /// The patterns that were joined.
    pub fn split(self, joined: &[u8]) -> Vec<&[u8]> {
        let mut rest = joined;
        let take = |length: &usize| {
            let (pattern, after) = rest.split_at(*length);
            rest = after;
            pattern
        };
        self.pattern_lengths().iter().map(take).collect()
    }

    /// What it takes by code and mask, in order.
    pub fn arguments(self) -> &'static [Argument] {
        use Argument::*;
        match self {
            Compiler::SingleStandard => &[StandardId, StandardId, Flag, Flag, Byte, Byte, Byte, Byte],
            Compiler::SingleExtended => &[ExtendedId, ExtendedId, Flag, Flag],
            Compiler::DualStandard => {
                &[StandardId, StandardId, Flag, Flag, Byte, Byte, StandardId, StandardId, Flag, Flag]
            }
            Compiler::DualExtended => &[HalfId, HalfId, HalfId, HalfId],
        }
    }
}

impl Argument {
    /// The largest number that is not refused.
    pub fn limit(self) -> u32 {
        match self {
            Argument::StandardId => 0x7FF,
            Argument::ExtendedId => 0x1FFF_FFFF,
            Argument::HalfId => 0xFFFF,
            Argument::Flag => 1,
            Argument::Byte => 0xFF,
        }
    }

    /// The largest number that its type can hold.
    pub fn largest(self) -> u32 {
        match self {
            Argument::StandardId => 0xFFFF,
            Argument::ExtendedId => u32::MAX,
            _ => self.limit(),
        }
    }

    /// How many bytes its type has.
    pub fn width(self) -> usize {
        match self {
            Argument::StandardId | Argument::HalfId => 2,
            Argument::ExtendedId => 4,
            Argument::Flag | Argument::Byte => 1,
        }
    }
}
