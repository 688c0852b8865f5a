//! Calls on a box and its answers, and both as bytes (docs/ABI.md, the box's script).
use original::twai::probe::Entry;

use crate::{
    answer::{Answer, OUTPUT_TOO_SHORT},
    face::FRAME_LENGTH,
    receive_box::{FIFO_ENTRIES, QUEUE_PLACES, weight},
};

pub type Frame = [u8; FRAME_LENGTH];

/// Runs a script on a fresh box: the library's function, or one that stands in for it.
pub type BoxScript =
    unsafe extern "C" fn(script: *const u8, script_length: usize, out: *mut u8, out_length: usize) -> Answer;

#[derive(Debug, Clone, Copy, PartialEq, Eq)]
pub enum Call {
    Arrival(Frame),
    Take,
    Start(Words),
    Step,
    State,
}

#[derive(Debug, Clone, Copy, PartialEq, Eq)]
pub struct Words {
    pub interrupt: u32,
    pub enable: u32,
    pub status: u32,
}

#[derive(Debug, Clone, Copy, PartialEq, Eq)]
pub enum Record {
    Frame(Frame),
    Overrun,
    BusOff,
}

#[derive(Debug, Clone, Copy, PartialEq, Eq)]
pub enum Arrival {
    Whole,
    Mark,
    NotRecorded,
}

#[derive(Debug, Clone, Copy, PartialEq, Eq)]
pub enum Command {
    Nothing,
    Abort,
    Release,
}

#[derive(Debug, Clone, Copy, PartialEq, Eq)]
pub enum Told {
    Done,
    Lost(Record),
    Finished { transmit_wakes: u8, error_wakes: u8, enable: u32 },
}

/// What of a box's state does not depend on where its rings begin, and is of use whether a drain runs or not.
#[derive(Debug, Clone, PartialEq, Eq)]
pub struct Seen {
    pub next: Next,
    pub fifo: Vec<Entry>,
    pub queue: Vec<Record>,
}

/// The next step of a drain, or that none runs.
#[derive(Debug, Clone, Copy, PartialEq, Eq)]
pub enum Next {
    Idle,
    Notice,
    Look,
    Miss,
    Copy,
    Release,
    Offer,
    Finish,
}

#[derive(Debug, Clone, PartialEq, Eq)]
pub enum Reply {
    Refused(u8),
    Arrived(Arrival),
    Taken(Option<Record>),
    Started,
    Stepped(Command, Told),
    State(Box<Seen>),
}

impl Call {
    fn put(self, script: &mut Vec<u8>) {
        match self {
            Call::Arrival(frame) => {
                script.push(1);
                script.extend(frame);
            }
            Call::Take => script.push(2),
            Call::Start(Words { interrupt, enable, status }) => {
                script.push(3);
                script.extend([interrupt, enable, status].into_iter().flat_map(u32::to_be_bytes));
            }
            Call::Step => script.push(4),
            Call::State => script.push(6),
        }
    }

    /// The call at the front of a script, which is left behind it; none where no whole call stands there.
    pub fn read(script: &mut &[u8]) -> Option<Self> {
        let (first, rest) = script.split_first()?;
        let (call, rest) = match first {
            1 => rest.split_first_chunk().map(|(frame, rest)| (Call::Arrival(*frame), rest))?,
            2 => (Call::Take, rest),
            3 => {
                let (words, rest) = rest.split_first_chunk::<12>()?;
                let word = |place: usize| u32::from_be_bytes(std::array::from_fn(|byte| words[4 * place + byte]));
                (Call::Start(Words { interrupt: word(0), enable: word(1), status: word(2) }), rest)
            }
            4 => (Call::Step, rest),
            6 => (Call::State, rest),
            _ => return None,
        };
        *script = rest;
        Some(call)
    }

    fn answer_length(self) -> usize {
        match self {
            Call::Arrival(_) => 2,
            Call::Take => 16,
            Call::Start(_) => 1,
            Call::Step => 23,
            Call::State => STATE_LENGTH,
        }
    }
}

impl Record {
    fn bytes(self) -> [u8; 1 + FRAME_LENGTH] {
        let mut bytes = [0; 1 + FRAME_LENGTH];
        match self {
            Record::Frame(frame) => bytes[1..].copy_from_slice(&frame),
            Record::Overrun => bytes[0] = 1,
            Record::BusOff => bytes[0] = 2,
        }
        bytes
    }

    fn read(bytes: &[u8]) -> Option<Self> {
        match bytes[0] {
            0 => bytes[1..].try_into().ok().map(Record::Frame),
            1 => Some(Record::Overrun),
            2 => Some(Record::BusOff),
            _ => None,
        }
    }
}

/// Where the parts of a state stand: entries and records of so many bytes, each ring's head and count behind it, the
/// FIFO's weight, the next step; the held record and the words follow.
const PLACE_LENGTH: usize = 1 + FRAME_LENGTH;
const FIFO_HEAD: usize = FIFO_ENTRIES * PLACE_LENGTH;
const QUEUE: usize = FIFO_HEAD + 3;
const QUEUE_HEAD: usize = QUEUE + QUEUE_PLACES * PLACE_LENGTH;
const NEXT: usize = QUEUE_HEAD + 2;
const STATE_LENGTH: usize = NEXT + 1 + PLACE_LENGTH + 12;

impl Seen {
    /// With the rings from their first places on, and zeros for what is not seen.
    fn bytes(&self) -> Vec<u8> {
        let mut bytes = vec![0; STATE_LENGTH];
        for (place, entry) in bytes.chunks_mut(PLACE_LENGTH).zip(&self.fifo) {
            match entry {
                Entry::Whole(frame) => place[1..].copy_from_slice(frame),
                Entry::OverrunMark => place[0] = 1,
            }
        }
        for (place, record) in bytes[QUEUE..].chunks_mut(PLACE_LENGTH).zip(&self.queue) {
            place.copy_from_slice(&record.bytes());
        }
        bytes[FIFO_HEAD + 1] = self.fifo.len() as u8;
        bytes[FIFO_HEAD + 2] = self.fifo.iter().map(weight).sum::<usize>() as u8;
        bytes[QUEUE_HEAD + 1] = self.queue.len() as u8;
        bytes[NEXT] = self.next as u8;
        bytes
    }

    fn read(bytes: &[u8]) -> Option<Self> {
        let entry = |place: &[u8]| match place[0] {
            0 => place[1..].try_into().ok().map(Entry::Whole),
            _ => Some(Entry::OverrunMark),
        };
        let fifo = ring(&bytes[..QUEUE], FIFO_ENTRIES).map(entry).collect::<Option<Vec<_>>>()?;
        let queue = ring(&bytes[QUEUE..NEXT], QUEUE_PLACES).map(Record::read).collect::<Option<_>>()?;
        let steps = [Next::Idle, Next::Notice, Next::Look, Next::Miss, Next::Copy, Next::Release, Next::Offer];
        let next = *steps.get(usize::from(bytes[NEXT])).unwrap_or(&Next::Finish);
        let weighed = usize::from(bytes[FIFO_HEAD + 2]) == fifo.iter().map(weight).sum();
        weighed.then_some(Seen { next, fifo, queue })
    }
}

/// The places in use of a ring that has so many, in order; its head and count stand behind it.
fn ring(bytes: &[u8], places: usize) -> impl Iterator<Item = &[u8]> {
    let (head, count) = (usize::from(bytes[places * PLACE_LENGTH]), usize::from(bytes[places * PLACE_LENGTH + 1]));
    (head..head + count).map(move |place| &bytes[place % places * PLACE_LENGTH..][..PLACE_LENGTH])
}

impl Reply {
    /// As the answer to this call.
    pub fn bytes(&self, call: Call) -> Vec<u8> {
        let mut bytes = vec![0];
        match *self {
            Reply::Refused(number) => bytes[0] = number,
            Reply::Arrived(arrival) => bytes.push(arrival as u8),
            Reply::Taken(None) | Reply::Started => {}
            Reply::Taken(Some(record)) => {
                bytes.push(1);
                bytes.extend(record.bytes());
            }
            Reply::Stepped(command, Told::Done) => bytes.extend([0, command as u8]),
            Reply::Stepped(command, Told::Lost(record)) => {
                bytes.extend([1, command as u8]);
                bytes.extend(record.bytes());
            }
            Reply::Stepped(command, Told::Finished { transmit_wakes, error_wakes, enable }) => {
                bytes.extend([2, command as u8]);
                bytes.extend([0; 1 + FRAME_LENGTH]);
                bytes.extend([transmit_wakes, error_wakes]);
                bytes.extend(enable.to_be_bytes());
            }
            Reply::State(ref seen) => bytes = seen.bytes(),
        }
        bytes.resize(call.answer_length(), 0);
        bytes
    }

    /// The answer that these bytes are to this call; none where they are no answer.
    fn read(call: Call, bytes: &[u8]) -> Option<Self> {
        if call == Call::State {
            return Seen::read(bytes).map(|seen| Reply::State(Box::new(seen)));
        }
        let reply = match (call, bytes[0]) {
            (_, 1..) => Reply::Refused(bytes[0]),
            (Call::Arrival(_), _) => Reply::Arrived(match bytes[1] {
                0 => Arrival::Whole,
                1 => Arrival::Mark,
                _ => Arrival::NotRecorded,
            }),
            (Call::Take, _) if bytes[1] == 0 => Reply::Taken(None),
            (Call::Take, _) => Reply::Taken(Some(Record::read(&bytes[2..])?)),
            (Call::Start(_), _) => Reply::Started,
            (Call::Step | Call::State, _) => Reply::Stepped(
                match bytes[2] {
                    0 => Command::Nothing,
                    1 => Command::Abort,
                    _ => Command::Release,
                },
                match bytes[1] {
                    0 => Told::Done,
                    1 => Told::Lost(Record::read(&bytes[3..17])?),
                    _ => Told::Finished {
                        transmit_wakes: bytes[17],
                        error_wakes: bytes[18],
                        enable: u32::from_be_bytes(bytes[19..].try_into().ok()?),
                    },
                },
            ),
        };
        (reply.bytes(call) == bytes).then_some(reply)
    }
}

/// What every lent byte holds before a script is run.
const FILL: u8 = 0xA5;
/// How many bytes are lent behind the answers.
const REST: usize = 8;

/// What a fresh box answers to the calls. An error where the answers are none, or not as docs/ABI.md says: one byte too
/// few for them is refused and nothing written; else they are written, and no more.
pub fn run(function: BoxScript, calls: &[Call]) -> Result<Vec<Reply>, String> {
    let mut script = Vec::new();
    calls.iter().for_each(|call| call.put(&mut script));
    let needed = calls.iter().map(|call| call.answer_length()).sum::<usize>();
    let mut out = vec![FILL; needed + REST];
    let mut lend = |room: usize| unsafe { function(script.as_ptr(), script.len(), out.as_mut_ptr(), room) };
    let refused = needed.checked_sub(1).map(&mut lend);
    if refused.is_some_and(|answer| answer != Answer::refuses(OUTPUT_TOO_SHORT, needed as u64)) {
        return Err(format!("{needed} bytes are needed, one less is answered by {refused:?}"));
    }
    if out.iter().any(|byte| *byte != FILL) {
        return Err("a refusal wrote".to_string());
    }
    let answer = unsafe { function(script.as_ptr(), script.len(), out.as_mut_ptr(), out.len()) };
    if answer != Answer::gives(calls.len() as u64) {
        return Err(format!("{} calls are answered by {answer:?}", calls.len()));
    }
    let (answers, rest) = out.split_at(needed);
    if rest != [FILL; REST] {
        return Err("bytes past the answers were written".to_string());
    }
    read_all(calls, answers)
}

fn read_all(calls: &[Call], mut answers: &[u8]) -> Result<Vec<Reply>, String> {
    let reply = |call: &Call| {
        let (bytes, rest) = answers.split_at(call.answer_length());
        answers = rest;
        Reply::read(*call, bytes).ok_or_else(|| format!("{call:02x?} is answered by {bytes:02x?}"))
    };
    calls.iter().map(reply).collect()
}
