//! The driver's src/twai/mod.rs and src/twai/filter.rs, whole and unchanged, on mock registers.
#![allow(dead_code, clippy::all)]

// The driver's attributes `#[instability::..]` and `#[procmacros::..]` are one crate here.
extern crate shim_macros as instability;
extern crate shim_macros as procmacros;

macro_rules! chip {
    () => {
        "esp32c3"
    };
}

/// As in the HAL, and one item more: the child module `probe`. The driver invokes this macro inside `mod twai`, so
/// `probe` stands there and reaches that module's private items, with no change to the driver's text.
macro_rules! any_peripheral {
    ($(#[$meta:meta])* $vis:vis peripheral $name:ident<'d> {
        $($(#[cfg($cfg:meta)])* $variant:ident($inner:ty)),* $(,)?
    }) => {
        $(#[$meta])*
        $vis struct $name<'d>(any::Inner<'d>);
        impl $crate::private::Sealed for $name<'_> {}
        impl $name<'_> {
            pub unsafe fn clone_unchecked(&self) -> Self {
                match &self.0 {
                    $($(#[cfg($cfg)])* any::Inner::$variant(inner) => {
                        Self(any::Inner::$variant(unsafe { inner.clone_unchecked() }))
                    })*
                }
            }
            pub fn reborrow(&mut self) -> $name<'_> {
                unsafe { self.clone_unchecked() }
            }
        }
        mod any {
            pub enum Inner<'d> {
                $($(#[cfg($cfg)])* $variant($inner),)*
            }
            pub trait Degrade: Sized {
                fn degrade<'a>(self) -> super::$name<'a>
                where
                    Self: 'a;
            }
            impl<'d> Degrade for super::$name<'d> {
                fn degrade<'a>(self) -> super::$name<'a>
                where
                    Self: 'a,
                {
                    self
                }
            }
            $($(#[cfg($cfg)])* impl<'d> Degrade for $inner {
                fn degrade<'a>(self) -> super::$name<'a>
                where
                    Self: 'a,
                {
                    super::$name(Inner::$variant(self))
                }
            })*
        }
        pub mod probe {
            include!(concat!(env!("CARGO_MANIFEST_DIR"), "/src/probe.rs"));
        }
    };
}
pub(crate) use any_peripheral;

mod hal;
pub mod pac;
pub mod source;
pub use hal::*;

include!(concat!(env!("OUT_DIR"), "/src/tree.rs"));
