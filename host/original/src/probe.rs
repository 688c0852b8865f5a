// Included inside `mod twai` (see `any_peripheral!` in lib.rs): ways to that module's private items.
pub use super::asynch::{TransmitFuture, TwaiAsyncState};
use super::*;
pub use crate::pac::twai0::{Entry, RegisterBlock};

#[inline]
pub fn new_from_parameters(
    id: Id,
    remote_request: bool,
    self_reception: bool,
    dlc: usize,
    data: &[u8],
) -> Result<EspTwaiFrame, EspTwaiError> {
    EspTwaiFrame::new_from_parameters(id, remote_request, self_reception, dlc, data)
}

/// The frame that these bytes are: where they stand, so that reading one costs no copy.
#[inline]
pub fn as_frame(bytes: &[u8; 13]) -> &EspTwaiFrame {
    // A field as large as its struct fills it.
    const { assert!(size_of::<EspTwaiFrame>() == 13 && align_of::<EspTwaiFrame>() == 1) };
    unsafe { &*std::ptr::from_ref(bytes).cast::<EspTwaiFrame>() }
}

#[inline]
pub fn bytes(frame: &EspTwaiFrame) -> &[u8; 13] {
    &frame.bytes
}

#[inline]
pub fn is_extended_format(frame: &EspTwaiFrame) -> bool {
    frame.is_extended_format()
}

#[inline]
pub fn data_offset(frame: &EspTwaiFrame) -> usize {
    frame.data_offset()
}

#[inline]
pub fn as_slice(frame: &EspTwaiFrame) -> &[u8] {
    frame.as_slice()
}

pub fn is_error_passive(registers: &RegisterBlock) -> bool {
    super::is_error_passive(registers)
}

pub fn handle_interrupt(registers: &RegisterBlock, state: &TwaiAsyncState) {
    super::asynch::handle_interrupt(registers, state)
}

/// The peripheral of this thread.
pub fn peripheral() -> AnyTwai<'static> {
    AnyTwai(super::any::Inner::Twai0(unsafe { crate::peripherals::TWAI0::steal() }))
}

/// The registers of this thread's peripheral, as after a reset.
pub fn fresh_registers() -> &'static RegisterBlock {
    let registers = crate::peripherals::TWAI0::regs();
    registers.clear();
    registers
}

pub fn transmitter() -> TwaiTx<'static, Blocking> {
    TwaiTx { twai: peripheral(), phantom: PhantomData, _guard: PeripheralGuard::new(crate::system::Peripheral::Twai0) }
}

pub fn receiver() -> TwaiRx<'static, Blocking> {
    TwaiRx { twai: peripheral(), phantom: PhantomData, _guard: PeripheralGuard::new(crate::system::Peripheral::Twai0) }
}
