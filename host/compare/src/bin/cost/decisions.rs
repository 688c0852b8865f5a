//! The rows of the decisions. The driver's act on registers, which are mocks here: on its side stand the same lines in
//! plain Rust over words.
use std::hint::black_box;

use compare::library::LIBRARY;
use oracle::answer::Answer;

use crate::repeat;

pub struct Row {
    pub name: &'static str,
    call: Call,
    status: u32,
    answer: u64,
}

#[derive(Clone, Copy)]
enum Call {
    /// Error-passive.
    Transmit,
    /// Error-passive, in flight.
    Poll,
    Receive,
}

const RECEIVE_READY: u32 = 1 << 0;
const TRANSMIT_FREE: u32 = 1 << 2;
const BUS_OFF: u32 = 1 << 7;
const MISS: u32 = 1 << 8;

const fn row(name: &'static str, call: Call, status: u32, answer: u64) -> Row {
    Row { name, call, status, answer }
}

pub const ROWS: [Row; 9] = [
    row("transmit, written", Call::Transmit, TRANSMIT_FREE, 0x200),
    row("transmit, aborted", Call::Transmit, 0, 0x104),
    row("transmit, bus-off", Call::Transmit, BUS_OFF, 3),
    row("poll, done", Call::Poll, TRANSMIT_FREE, 0x1_0000),
    row("poll, aborted", Call::Poll, 0, 0x1_0104),
    row("poll, bus-off", Call::Poll, BUS_OFF, 0x1_0003),
    row("receive, read and released", Call::Receive, RECEIVE_READY, 0x300),
    row("receive, overrun", Call::Receive, RECEIVE_READY | MISS, 5),
    row("receive, would block", Call::Receive, 0, 1),
];

pub fn by_library(row: &Row, times: u64) {
    run(row, LIBRARY.transmit, LIBRARY.poll, LIBRARY.receive, times);
}

pub fn by_plain_face(row: &Row, times: u64) {
    run(row, plain_transmit, plain_poll, plain_receive, times);
}

pub fn bare(row: &Row, times: u64) {
    repeat(times, || {
        let status = black_box(row.status);
        black_box(match row.call {
            Call::Transmit => transmitted(status, true),
            Call::Poll => polled(status, true, true),
            Call::Receive => received(status),
        });
    })
}

fn run(
    row: &Row,
    transmit: unsafe extern "C" fn(u32, bool) -> Answer,
    poll: unsafe extern "C" fn(u32, bool, bool) -> Answer,
    receive: unsafe extern "C" fn(u32) -> Answer,
    times: u64,
) {
    let (transmit, poll, receive) = black_box((transmit, poll, receive));
    let call = |status: u32| unsafe {
        match row.call {
            Call::Transmit => transmit(status, black_box(true)),
            Call::Poll => poll(status, black_box(true), black_box(true)),
            Call::Receive => receive(status),
        }
    };
    assert_eq!(call(row.status), Answer::gives(row.answer), "{}", row.name);
    repeat(times, || {
        black_box(call(black_box(row.status)));
    })
}

extern "C" fn plain_transmit(status: u32, error_passive: bool) -> Answer {
    Answer::gives(transmitted(status, error_passive))
}

extern "C" fn plain_poll(status: u32, error_passive: bool, in_flight: bool) -> Answer {
    Answer::gives(polled(status, error_passive, in_flight))
}

extern "C" fn plain_receive(status: u32) -> Answer {
    Answer::gives(received(status))
}

fn transmitted(status: u32, error_passive: bool) -> u64 {
    if status & BUS_OFF != 0 {
        return 3;
    }
    if status & TRANSMIT_FREE == 0 {
        return if error_passive { 0x104 } else { 1 };
    }
    0x200
}

fn polled(status: u32, error_passive: bool, in_flight: bool) -> u64 {
    let kept = u64::from(in_flight) << 16;
    if status & BUS_OFF != 0 {
        return kept | 3;
    }
    if status & TRANSMIT_FREE == 0 {
        return kept | if error_passive { 0x104 } else { 2 };
    }
    if in_flight { kept } else { 0x1_0202 }
}

fn received(status: u32) -> u64 {
    if status & BUS_OFF != 0 {
        return 3;
    }
    if status & RECEIVE_READY == 0 {
        return 1;
    }
    if status & MISS != 0 { 5 } else { 0x300 }
}
