//! `enumset`: a set of an enum's variants, that gives them in the order of their declaration.
use std::marker::PhantomData;

pub use shim_macros::EnumSetType;

pub trait EnumSetType: Copy + Eq + 'static {
    const ALL: &'static [Self];
    fn place(self) -> u32;
}

#[derive(Debug, Clone, Copy, PartialEq, Eq)]
pub struct EnumSet<T: EnumSetType>(u32, PhantomData<T>);

impl<T: EnumSetType> EnumSet<T> {
    pub fn all() -> Self {
        let bits = T::ALL.iter().fold(0, |bits, variant| bits | 1 << variant.place());
        EnumSet(bits, PhantomData)
    }
}

impl<T: EnumSetType> From<T> for EnumSet<T> {
    fn from(variant: T) -> Self {
        EnumSet(1 << variant.place(), PhantomData)
    }
}

impl<T: EnumSetType> IntoIterator for EnumSet<T> {
    type Item = T;
    type IntoIter = std::vec::IntoIter<T>;

    fn into_iter(self) -> Self::IntoIter {
        let variants = T::ALL.iter().copied().filter(|variant| self.0 >> variant.place() & 1 == 1);
        variants.collect::<Vec<T>>().into_iter()
    }
}
