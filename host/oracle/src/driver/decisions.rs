//! The decisions of the driver's side: its blocking transmit and receive and its poll, on mock registers. What it did
//! becomes the number that docs/ABI.md tells.
use std::{
    future::Future,
    pin::{Pin, pin},
    task::{Context, Poll, Waker},
};

use original::twai::{
    ErrorKind, EspTwaiError,
    probe::{self, RegisterBlock, TransmitFuture},
};
use trace::Event;

use crate::{answer::Answer, face::FRAME_LENGTH};

/// An answer or a command that no decision gives.
const NONE_OF_THESE: u64 = 0xFF;

const DONE: u64 = 0;
const WOULD_BLOCK: u64 = 1;
const PENDING: u64 = 2;

const NOTHING: u64 = 0;
const ABORT: u64 = 1;
const WRITE_THE_FRAME: u64 = 2;
const READ_AND_RELEASE: u64 = 3;

/// The transmit buffer is free, and no more.
const BUFFER_FREE: u32 = 1 << 2;

/// What is sent or received: by transmission and by self-reception, of both formats, one of them remote.
const FRAMES: [[u8; FRAME_LENGTH]; 3] = [
    [0x08, 0xFF, 0xE0, 1, 2, 3, 4, 5, 6, 7, 8, 0xEE, 0xEE],
    [0x92, 0x91, 0xA2, 0xB3, 0xC0, 1, 2, 0xEE, 0xEE, 0xEE, 0xEE, 0xEE, 0xEE],
    [0x43, 0x24, 0x80, 0xEE, 0xEE, 0xEE, 0xEE, 0xEE, 0xEE, 0xEE, 0xEE, 0xEE, 0xEE],
];

/// Transmit and receive error counters, error-passive or not.
const PASSIVE: [(u32, u32); 3] = [(128, 0), (0, 128), (255, 255)];
const NOT_PASSIVE: [(u32, u32); 3] = [(0, 0), (127, 0), (127, 127)];

pub extern "C" fn transmit(status: u32, error_passive: bool) -> Answer {
    same_for_all(error_passive, |frame, counters| {
        let registers = fresh_registers(status, counters);
        let (result, log) = trace::record(None, || probe::transmitter().transmit(probe::as_frame(frame)));
        number(result.map_or_else(blocking_number, |()| DONE), command(registers, &log, frame))
    })
}

pub extern "C" fn poll(status: u32, error_passive: bool, in_flight: bool) -> Answer {
    same_for_all(error_passive, |frame, counters| {
        let mut future = pin!(TransmitFuture::new(probe::peripheral(), probe::as_frame(frame)));
        if in_flight {
            // The flag is private: a poll with a free buffer sets it.
            fresh_registers(BUFFER_FREE, (0, 0));
            let _ = poll_once(&mut future);
        }
        let registers = fresh_registers(status, counters);
        let (result, log) = trace::record(None, || poll_once(&mut future));
        let decided = number(poll_number(result), command(registers, &log, frame));
        fresh_registers(BUFFER_FREE, (0, 0));
        let in_flight_after = poll_once(&mut future).is_ready();
        decided + (u64::from(in_flight_after) << 16)
    })
}

pub extern "C" fn receive(status: u32) -> Answer {
    same_for_all(false, |frame, counters| {
        let registers = fresh_registers(status, counters);
        registers.window.set(Some(*frame));
        let (result, log) = trace::record(None, || probe::receiver().receive());
        let received = |received| if probe::bytes(&received) == frame { DONE } else { NONE_OF_THESE };
        number(result.map_or_else(blocking_number, received), command(registers, &log, frame))
    })
}

/// What a decision is for every frame and every pair of error counters that is error-passive or not.
fn same_for_all(error_passive: bool, decide: impl Fn(&[u8; FRAME_LENGTH], (u32, u32)) -> u64) -> Answer {
    let counters = if error_passive { PASSIVE } else { NOT_PASSIVE };
    let mut numbers = FRAMES.iter().flat_map(|frame| counters.map(|counters| decide(frame, counters)));
    let first = numbers.next().expect("there are frames");
    let same = numbers.all(|number| number == first);
    Answer::gives(if same { first } else { number(NONE_OF_THESE, NONE_OF_THESE) })
}

fn fresh_registers(status: u32, (transmit_errors, receive_errors): (u32, u32)) -> &'static RegisterBlock {
    let registers = probe::fresh_registers();
    registers.window.set(Some([0; FRAME_LENGTH]));
    registers.status().preset(status);
    registers.tx_err_cnt().preset(transmit_errors);
    registers.rx_err_cnt().preset(receive_errors);
    registers
}

fn poll_once(future: &mut Pin<&mut TransmitFuture<'_, '_>>) -> Poll<Result<(), EspTwaiError>> {
    future.as_mut().poll(&mut Context::from_waker(Waker::noop()))
}

fn number(answer: u64, command: u64) -> u64 {
    answer + (command << 8)
}

fn blocking_number(error: nb::Error<EspTwaiError>) -> u64 {
    match error {
        nb::Error::WouldBlock => WOULD_BLOCK,
        nb::Error::Other(error) => error_number(error),
    }
}

fn poll_number(poll: Poll<Result<(), EspTwaiError>>) -> u64 {
    match poll {
        Poll::Pending => PENDING,
        Poll::Ready(Ok(())) => DONE,
        Poll::Ready(Err(error)) => error_number(error),
    }
}

fn error_number(error: EspTwaiError) -> u64 {
    match error {
        EspTwaiError::BusOff => 3,
        EspTwaiError::TransmissionAborted => 4,
        EspTwaiError::EmbeddedHAL(ErrorKind::Overrun) => 5,
        _ => NONE_OF_THESE,
    }
}

/// From the accesses to the data window and the command register, in order, and what was sent.
fn command(registers: &RegisterBlock, log: &[Event], frame: &[u8; FRAME_LENGTH]) -> u64 {
    let given = log.iter().filter(|event| matches!(event, Event::Data | Event::Write { register: "cmd", .. }));
    match given.collect::<Vec<_>>()[..] {
        [] => NOTHING,
        [Event::Write { word: 2, .. }] => ABORT,
        [Event::Data, Event::Write { word: 4, .. }] => READ_AND_RELEASE,
        [Event::Data, Event::Write { word, .. }] if is_sent(registers, *word, frame) => WRITE_THE_FRAME,
        _ => NONE_OF_THESE,
    }
}

/// Whether the bytes in use, and only they, were written, and then the frame's own command was given.
fn is_sent(registers: &RegisterBlock, word: u32, frame: &[u8; FRAME_LENGTH]) -> bool {
    let frame = probe::as_frame(frame);
    let used = probe::as_slice(frame);
    let asked = if frame.is_self_reception() { 1 << 4 } else { 1 << 0 };
    let sent = registers.sent.borrow();
    let written = |bytes: &[Option<u8>; FRAME_LENGTH]| {
        bytes.iter().enumerate().all(|(place, byte)| *byte == used.get(place).copied())
    };
    word == asked && sent.len() == 1 && sent[0].command == asked && written(&sent[0].bytes)
}
