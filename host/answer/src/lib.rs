//! What every function answers (docs/ABI.md). It needs no archive, so that the driver's side is built without one.
#![no_std]

#[repr(C)]
#[derive(Debug, Clone, Copy, PartialEq, Eq)]
pub struct Answer {
    /// 0 where the call was accepted, else the refusal's number.
    pub number: u32,
    /// What the call gives, or what the refusal carries.
    pub value: u64,
}

impl Answer {
    #[inline]
    pub fn gives(value: u64) -> Self {
        Answer { number: 0, value }
    }

    #[inline]
    pub fn refuses(number: u32, carries: u64) -> Self {
        Answer { number, value: carries }
    }

    pub fn is_refusal(&self) -> bool {
        self.number != 0
    }
}
