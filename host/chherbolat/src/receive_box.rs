//! The receive box: FIFO, queue and drain. Its state stands in these bytes between calls, and each call is a script of three:
//! load, call, state.
use crate::{
    FRAME_LENGTH, Frame, Result, raw,
    refusal::{refuse, result},
};

pub const STATE_LENGTH: usize = 1376;
const LONGEST_CALL: usize = 1 + FRAME_LENGTH;
const LONGEST_ANSWER: usize = 23;

const ARRIVAL: u8 = 1;
const TAKE: u8 = 2;
const START: u8 = 3;
const STEP: u8 = 4;
const LOAD: u8 = 5;
const STATE: u8 = 6;

#[derive(Debug, Clone, PartialEq, Eq)]
pub struct ReceiveBox {
    state: [u8; STATE_LENGTH],
}

#[derive(Debug, Clone, Copy, PartialEq, Eq)]
pub enum Arrival {
    Whole,
    Mark,
    NotRecorded,
}

#[derive(Debug, Clone, Copy, PartialEq, Eq)]
pub enum Record {
    Frame(Frame),
    Overrun,
    BusOff,
}

#[derive(Debug, Clone, Copy, PartialEq, Eq)]
pub struct Words {
    pub interrupt: u32,
    pub enable: u32,
    pub status: u32,
}

#[derive(Debug, Clone, Copy, PartialEq, Eq)]
pub enum Command {
    Nothing,
    Abort,
    Release,
}

#[derive(Debug, Clone, Copy, PartialEq, Eq)]
pub enum Told {
    Done,
    Lost(Record),
    Finished { transmit_wakes: u8, error_wakes: u8, enable: u32 },
}

#[derive(Debug, Clone, Copy, PartialEq, Eq)]
pub struct Step {
    pub told: Told,
    pub command: Command,
}

impl ReceiveBox {
    /// A fresh one.
    pub fn new() -> Self {
        let mut state = [0; STATE_LENGTH];
        run(&[STATE], &mut state);
        ReceiveBox { state }
    }

    /// Bytes that encode no state are refused. A state that breaks the box's rules is refused by the next call.
    pub fn from_state(state: &[u8; STATE_LENGTH]) -> Result<Self> {
        let mut script = [0; 1 + STATE_LENGTH];
        let mut answer = [0];
        script[0] = LOAD;
        script[1..].copy_from_slice(state);
        run(&script, &mut answer);
        accepted(answer).map(|_| ReceiveBox { state: *state })
    }

    pub fn state(&self) -> &[u8; STATE_LENGTH] {
        &self.state
    }

    /// A frame arrives at the FIFO.
    pub fn arrive(&mut self, frame: &Frame) -> Result<Arrival> {
        let mut call = [ARRIVAL; 1 + FRAME_LENGTH];
        call[1..].copy_from_slice(frame.bytes());
        self.call(&call).map(|[_, stored]| match stored {
            0 => Arrival::Whole,
            1 => Arrival::Mark,
            _ => Arrival::NotRecorded,
        })
    }

    /// Takes the oldest record from the queue.
    pub fn take(&mut self) -> Result<Option<Record>> {
        self.call::<16>(&[TAKE]).map(|answer| (answer[1] == 1).then(|| record(&answer[2..])))
    }

    /// Starts a drain with the words that the interrupt found.
    pub fn start(&mut self, words: Words) -> Result<()> {
        let mut call = [START; 13];
        for (place, word) in call[1..].chunks_mut(4).zip([words.interrupt, words.enable, words.status]) {
            place.copy_from_slice(&word.to_be_bytes());
        }
        self.call::<1>(&call).map(|_| ())
    }

    /// Does the next step of the drain that runs.
    pub fn step(&mut self) -> Result<Step> {
        let answer: [u8; LONGEST_ANSWER] = self.call(&[STEP])?;
        let told = match answer[1] {
            0 => Told::Done,
            1 => Told::Lost(record(&answer[3..17])),
            _ => Told::Finished {
                transmit_wakes: answer[17],
                error_wakes: answer[18],
                enable: u32::from_be_bytes([answer[19], answer[20], answer[21], answer[22]]),
            },
        };
        let command = match answer[2] {
            0 => Command::Nothing,
            1 => Command::Abort,
            _ => Command::Release,
        };
        Ok(Step { told, command })
    }

    /// The box's answer to one call; it is then as the call leaves it.
    fn call<const ANSWER: usize>(&mut self, call: &[u8]) -> Result<[u8; ANSWER]> {
        let mut script = [0; 1 + STATE_LENGTH + LONGEST_CALL + 1];
        let mut out = [0; 1 + LONGEST_ANSWER + STATE_LENGTH];
        let (loaded, called) = (1 + STATE_LENGTH, 1 + STATE_LENGTH + call.len());
        script[0] = LOAD;
        script[1..loaded].copy_from_slice(&self.state);
        script[loaded..called].copy_from_slice(call);
        script[called] = STATE;
        run(&script[..=called], &mut out);
        self.state.copy_from_slice(&out[1 + ANSWER..][..STATE_LENGTH]);
        accepted(out[1..=ANSWER].try_into().expect("an answer is as long as it is"))
    }
}

impl Default for ReceiveBox {
    fn default() -> Self {
        Self::new()
    }
}

fn run(script: &[u8], out: &mut [u8]) {
    let answer = unsafe { raw::chherbolat_box_script(script.as_ptr(), script.len(), out.as_mut_ptr(), out.len()) };
    result(answer).expect("the output is as long as the answers");
}

/// An answer's first byte is the refusal's number, or 0.
fn accepted<const ANSWER: usize>(answer: [u8; ANSWER]) -> Result<[u8; ANSWER]> {
    if answer[0] == 0 { Ok(answer) } else { refuse(u32::from(answer[0]), 0) }
}

/// A kind and 13 bytes.
fn record(bytes: &[u8]) -> Record {
    match bytes[0] {
        0 => Record::Frame(Frame::from_bytes(bytes[1..=FRAME_LENGTH].try_into().expect("a record has 14 bytes"))),
        1 => Record::Overrun,
        _ => Record::BusOff,
    }
}
