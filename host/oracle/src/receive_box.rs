//! The outline's box, written anew: what the comparison of drains and the check of places are tried on.
use std::{collections::VecDeque, slice};

use original::twai::probe::{self, Entry};

use crate::{
    answer::{Answer, OUTPUT_TOO_SHORT},
    script::{self, Arrival, Call, Command, Frame, Record, Reply, Seen, Told, Words},
};

pub const FIFO_ENTRIES: usize = 64;
pub const FIFO_WEIGHT: usize = 64;
pub const QUEUE_PLACES: usize = 32;

const DRAIN_RUNS: u8 = 8;
const NO_DRAIN_RUNS: u8 = 9;

#[derive(Default)]
pub struct ReceiveBox {
    fifo: VecDeque<Entry>,
    queue: VecDeque<Record>,
    drain: Option<Drain>,
}

struct Drain {
    words: Words,
    next: Next,
}

#[derive(Clone, Copy)]
enum Next {
    Notice,
    Look,
    Miss,
    Copy,
    Release(Record),
    Offer(Record),
    Finish,
}

impl Words {
    pub fn interrupted(&self, bit: u32) -> bool {
        self.interrupt >> bit & 1 == 1
    }

    pub fn receive_due(&self) -> bool {
        self.interrupted(0)
    }

    pub fn notice_due(&self) -> bool {
        self.interrupted(2) && self.status & 0xC0 == 0xC0
    }

    /// The finish's wakes and enable word.
    pub fn finished(&self) -> Told {
        let notice = u8::from(self.notice_due());
        let errors = u8::from([2, 5, 7].into_iter().any(|bit| self.interrupted(bit)));
        Told::Finished {
            transmit_wakes: notice + u8::from(self.interrupted(1)) + errors,
            error_wakes: notice + errors,
            enable: self.enable & (!self.interrupt | 1),
        }
    }
}

/// Lets a frame arrive.
pub fn arrive(fifo: &mut VecDeque<Entry>, frame: Frame) -> Arrival {
    let entry = Entry::Whole(frame);
    if fifo.len() == FIFO_ENTRIES {
        Arrival::NotRecorded
    } else if fifo.iter().map(weight).sum::<usize>() + weight(&entry) > FIFO_WEIGHT {
        fifo.push_back(Entry::OverrunMark);
        Arrival::Mark
    } else {
        fifo.push_back(entry);
        Arrival::Whole
    }
}

pub fn weight(entry: &Entry) -> usize {
    match entry {
        Entry::Whole(frame) => probe::as_slice(probe::as_frame(frame)).len(),
        Entry::OverrunMark => 0,
    }
}

pub fn record_of(entry: Entry) -> Record {
    match entry {
        Entry::Whole(frame) => Record::Frame(frame),
        Entry::OverrunMark => Record::Overrun,
    }
}

impl ReceiveBox {
    pub fn call(&mut self, call: Call) -> Reply {
        match (call, &mut self.drain) {
            (Call::Arrival(frame), _) => Reply::Arrived(arrive(&mut self.fifo, frame)),
            (Call::Take, _) => Reply::Taken(self.queue.pop_front()),
            (Call::State, _) => Reply::State(Box::new(self.seen())),
            (Call::Start(_), Some(_)) => Reply::Refused(DRAIN_RUNS),
            (Call::Start(words), None) => {
                let next = if words.notice_due() { Next::Notice } else { after_notice(&words) };
                self.drain = Some(Drain { words, next });
                Reply::Started
            }
            (Call::Step, None) => Reply::Refused(NO_DRAIN_RUNS),
            (Call::Step, Some(Drain { words, next })) => {
                let (words, now) = (*words, *next);
                self.step(words, now)
            }
        }
    }

    fn seen(&self) -> Seen {
        let next = match self.drain.as_ref().map(|drain| drain.next) {
            None => script::Next::Idle,
            Some(Next::Notice) => script::Next::Notice,
            Some(Next::Look) => script::Next::Look,
            Some(Next::Miss) => script::Next::Miss,
            Some(Next::Copy) => script::Next::Copy,
            Some(Next::Release(_)) => script::Next::Release,
            Some(Next::Offer(_)) => script::Next::Offer,
            Some(Next::Finish) => script::Next::Finish,
        };
        Seen { next, fifo: self.fifo.iter().copied().collect(), queue: self.queue.iter().copied().collect() }
    }

    fn step(&mut self, words: Words, now: Next) -> Reply {
        let (reply, next) = match now {
            Next::Notice => {
                let told = self.offer(Record::BusOff);
                (Reply::Stepped(Command::Abort, told), after_notice(&words))
            }
            Next::Look => (quiet(), if self.fifo.is_empty() { Next::Finish } else { Next::Miss }),
            Next::Miss if self.fifo[0] == Entry::OverrunMark => (quiet(), Next::Release(Record::Overrun)),
            Next::Miss => (quiet(), Next::Copy),
            Next::Copy => (quiet(), Next::Release(record_of(self.fifo[0]))),
            Next::Release(held) => {
                self.fifo.pop_front();
                (Reply::Stepped(Command::Release, Told::Done), Next::Offer(held))
            }
            Next::Offer(held) => {
                let told = self.offer(held);
                (Reply::Stepped(Command::Nothing, told), if told == Told::Done { Next::Look } else { Next::Finish })
            }
            Next::Finish => {
                self.drain = None;
                return Reply::Stepped(Command::Nothing, words.finished());
            }
        };
        self.drain = Some(Drain { words, next });
        reply
    }

    fn offer(&mut self, record: Record) -> Told {
        if self.queue.len() == QUEUE_PLACES {
            return Told::Lost(record);
        }
        self.queue.push_back(record);
        Told::Done
    }
}

fn after_notice(words: &Words) -> Next {
    if words.receive_due() { Next::Look } else { Next::Finish }
}

fn quiet() -> Reply {
    Reply::Stepped(Command::Nothing, Told::Done)
}

/// # Safety
/// The pointers and lengths are those of two slices, the second to be written to and apart from the first.
pub unsafe extern "C" fn box_script(
    script: *const u8,
    script_length: usize,
    out: *mut u8,
    out_length: usize,
) -> Answer {
    let mut script = unsafe { slice::from_raw_parts(script, script_length) };
    let out = unsafe { slice::from_raw_parts_mut(out, out_length) };
    let (mut fresh, mut answers, mut count) = (ReceiveBox::default(), Vec::new(), 0);
    while let Some(call) = Call::read(&mut script) {
        answers.extend(fresh.call(call).bytes(call));
        count += 1;
    }
    match out.get_mut(..answers.len()) {
        Some(front) => {
            front.copy_from_slice(&answers);
            Answer::gives(count)
        }
        None => Answer::refuses(OUTPUT_TOO_SHORT, answers.len() as u64),
    }
}
