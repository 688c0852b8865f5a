//! The rest of the HAL that the driver names: nothing here has an effect.
pub trait DriverMode {}
pub struct Blocking;
pub struct Async;
impl DriverMode for Blocking {}
impl DriverMode for Async {}

pub mod private {
    pub trait Sealed {}
}
pub mod gpio {
    #[derive(Clone, Copy)]
    pub enum DriveMode {
        PushPull,
        OpenDrain,
    }
    #[derive(Clone, Copy)]
    pub enum Pull {
        None,
        Up,
        Down,
    }
    #[derive(Default)]
    pub struct InputConfig;
    impl InputConfig {
        pub fn with_pull(self, _: Pull) -> Self {
            self
        }
    }
    #[derive(Default)]
    pub struct OutputConfig;
    impl OutputConfig {
        pub fn with_drive_mode(self, _: DriveMode) -> Self {
            self
        }
        pub fn with_pull(self, _: Pull) -> Self {
            self
        }
    }
    #[allow(non_camel_case_types)]
    pub enum InputSignal {
        TWAI_RX,
    }
    #[allow(non_camel_case_types)]
    pub enum OutputSignal {
        TWAI_TX,
    }
    impl InputSignal {
        pub fn connect_to(self, _: &interconnect::InputSignal<'_>) {}
    }
    impl OutputSignal {
        pub fn connect_to(self, _: &interconnect::OutputSignal<'_>) {}
    }
    pub struct NoPin;
    pub mod interconnect {
        use core::marker::PhantomData;
        pub struct InputSignal<'d>(PhantomData<&'d ()>);
        pub struct OutputSignal<'d>(PhantomData<&'d ()>);
        impl InputSignal<'_> {
            pub fn apply_input_config(&self, _: &super::InputConfig) {}
            pub fn set_input_enable(&self, _: bool) {}
        }
        impl OutputSignal<'_> {
            pub fn apply_output_config(&self, _: &super::OutputConfig) {}
            pub fn set_output_enable(&self, _: bool) {}
        }
        pub trait PeripheralInput<'d>: Into<InputSignal<'d>> {}
        pub trait PeripheralOutput<'d>: Into<OutputSignal<'d>> {}
        impl From<super::NoPin> for InputSignal<'_> {
            fn from(_: super::NoPin) -> Self {
                InputSignal(PhantomData)
            }
        }
        impl From<super::NoPin> for OutputSignal<'_> {
            fn from(_: super::NoPin) -> Self {
                OutputSignal(PhantomData)
            }
        }
        impl<'d> PeripheralInput<'d> for super::NoPin {}
        impl<'d> PeripheralOutput<'d> for super::NoPin {}
    }
}
pub mod interrupt {
    #[derive(Clone, Copy)]
    pub struct InterruptHandler(pub fn());
    impl InterruptHandler {
        pub const fn new(handler: fn()) -> Self {
            InterruptHandler(handler)
        }
    }
    pub trait InterruptConfigurable: crate::private::Sealed {
        fn set_interrupt_handler(&mut self, handler: InterruptHandler);
    }
    pub fn disable(_: crate::system::Cpu, _: crate::peripherals::Interrupt) {}
    pub fn bind_handler(_: crate::peripherals::Interrupt, _: InterruptHandler) {}
}
pub mod system {
    pub enum Cpu {
        ProCpu,
    }
    impl Cpu {
        pub fn current() -> Self {
            Cpu::ProCpu
        }
        pub fn other() -> impl Iterator<Item = Self> {
            core::iter::empty()
        }
    }
    pub enum Peripheral {
        Twai0,
    }
    pub struct PeripheralGuard;
    impl PeripheralGuard {
        pub fn new(_: Peripheral) -> Self {
            PeripheralGuard
        }
    }
}
pub mod soc {
    pub mod clocks {
        pub fn apb_clk_frequency() -> u32 {
            80_000_000
        }
    }
}
pub mod rtc_cntl {
    pub struct WakeLock;
    impl WakeLock {
        pub fn new() -> Self {
            WakeLock
        }
    }
}
pub mod peripherals {
    use crate::pac::twai0::RegisterBlock;
    use core::marker::PhantomData;
    pub enum Interrupt {
        TWAI0,
    }
    pub struct TWAI0<'d>(PhantomData<&'d mut ()>);
    thread_local!(static BLOCK: &'static RegisterBlock = Box::leak(Box::default()));
    impl TWAI0<'_> {
        pub unsafe fn steal() -> Self {
            TWAI0(PhantomData)
        }
        pub unsafe fn clone_unchecked(&self) -> Self {
            TWAI0(PhantomData)
        }
        pub fn reborrow(&mut self) -> TWAI0<'_> {
            TWAI0(PhantomData)
        }
        /// Each thread has a block of its own.
        pub fn regs<'a>() -> &'a RegisterBlock {
            BLOCK.with(|block| *block)
        }
    }
    impl crate::private::Sealed for TWAI0<'_> {}
}
