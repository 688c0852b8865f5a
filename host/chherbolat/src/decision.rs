//! What transmit, poll and receive decide by the status word.
use crate::{raw, refusal::result};
use answer::Answer;

#[derive(Debug, Clone, Copy, PartialEq, Eq)]
pub enum Outcome {
    Done,
    WouldBlock,
    Pending,
    BusOff,
    TransmissionAborted,
    Overrun,
}

#[derive(Debug, Clone, Copy, PartialEq, Eq)]
pub enum Command {
    Nothing,
    Abort,
    Write,
    ReadAndRelease,
}

#[derive(Debug, Clone, Copy, PartialEq, Eq)]
pub struct Decision {
    pub outcome: Outcome,
    pub command: Command,
    /// After a poll: whether the frame is in flight.
    pub in_flight: bool,
}

pub fn transmit(status: u32, error_passive: bool) -> Decision {
    decided(unsafe { raw::chherbolat_transmit(status, error_passive) })
}

pub fn poll(status: u32, error_passive: bool, in_flight: bool) -> Decision {
    decided(unsafe { raw::chherbolat_poll(status, error_passive, in_flight) })
}

pub fn receive(status: u32) -> Decision {
    decided(unsafe { raw::chherbolat_receive(status) })
}

fn decided(answer: Answer) -> Decision {
    let [outcome, command, in_flight, ..] = result(answer).expect("a decision is not refused").to_le_bytes();
    let outcome = match outcome {
        0 => Outcome::Done,
        1 => Outcome::WouldBlock,
        2 => Outcome::Pending,
        3 => Outcome::BusOff,
        4 => Outcome::TransmissionAborted,
        _ => Outcome::Overrun,
    };
    let command = match command {
        0 => Command::Nothing,
        1 => Command::Abort,
        2 => Command::Write,
        _ => Command::ReadAndRelease,
    };
    Decision { outcome, command, in_flight: in_flight == 1 }
}
