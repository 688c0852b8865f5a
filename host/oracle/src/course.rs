//! Drains of the driver: its `handle_interrupt` on mock registers, with frames that arrive and records that are taken
//! before any of its accesses. What it does becomes the calls on a box that come to the same, and their answers: a step
//! for each look, miss read, copy, release and offer, one for a notice and one for the finish. Now and then the state
//! is asked for: the next step, the FIFO and the queue.
use std::{cell::RefCell, collections::VecDeque, rc::Rc};

use original::twai::{
    ErrorKind, EspTwaiError, EspTwaiFrame,
    probe::{self, RegisterBlock, TwaiAsyncState},
};
use trace::Event;

use crate::{
    face::FRAME_LENGTH,
    random::Random,
    receive_box::{FIFO_ENTRIES, QUEUE_PLACES, arrive},
    script::{Arrival, Call, Command, Frame, Next, Record, Reply, Seen, Told, Words},
};

const RECEIVE_ONLY: Words = Words { interrupt: 1, enable: u32::MAX, status: 0 };

/// How many calls are made while a drain runs: with no end to them some drains would have none.
const MOST_WITHIN: u64 = 200;
const ACCESSES_TO_A_STATE: u64 = 12;
/// Instead of the number of accesses to a call: no call at all.
const NONE: u64 = u64::MAX;

/// The driver's receive path in the course of several drains, and what was asked of it and seen.
pub struct Course {
    board: Rc<Board>,
    random: Rc<RefCell<Random>>,
    pub calls: Vec<Call>,
    pub replies: Vec<Reply>,
    pub counts: Counts,
}

#[derive(Default)]
struct Board {
    registers: RegisterBlock,
    state: TwaiAsyncState,
}

#[derive(Default, Clone, Copy)]
pub struct Counts {
    pub drains: u64,
    pub notices: u64,
    pub stored: u64,
    pub lost: u64,
    pub marks: u64,
    pub not_recorded: u64,
    /// While a drain ran.
    pub arrivals_within: u64,
    pub takes_within: u64,
    pub states: u64,
}

impl Counts {
    pub fn add(&mut self, other: &Counts) {
        self.drains += other.drains;
        self.notices += other.notices;
        self.stored += other.stored;
        self.lost += other.lost;
        self.marks += other.marks;
        self.not_recorded += other.not_recorded;
        self.arrivals_within += other.arrivals_within;
        self.takes_within += other.takes_within;
        self.states += other.states;
    }
}

/// Calls that were made while the driver ran: before which of its accesses, counted from 0.
type Within = Rc<RefCell<Vec<(usize, Call, Reply)>>>;

impl Course {
    /// Up to twelve drains, and then as many as empty the FIFO, with the queue emptied by takes.
    pub fn random(seed: u64) -> Result<Self, String> {
        let mut course = Course {
            board: Rc::default(),
            random: Rc::new(RefCell::new(Random::from_seed(seed))),
            calls: Vec::new(),
            replies: Vec::new(),
            counts: Counts::default(),
        };
        let drains = 1 + course.below(12);
        for _ in 0..drains {
            let (arrivals, takes) = (course.some([1, 4, 20, 90]), course.some([1, 1, 4, 40]));
            (0..arrivals).for_each(|_| course.arrive());
            for _ in 0..takes {
                course.take();
            }
            let words = random_words(&mut course.random.borrow_mut());
            let one_call_in = [1, 2, 6, 40, NONE][course.below(5) as usize];
            course.drain(words, one_call_in)?;
        }
        course.empty()?;
        Ok(course)
    }

    fn below(&self, limit: u64) -> u64 {
        self.random.borrow_mut().below(limit)
    }

    fn some(&self, limits: [u64; 4]) -> u64 {
        let limit = limits[self.below(4) as usize];
        self.below(limit)
    }

    fn arrive(&mut self) {
        let frame = random_frame(&mut self.random.borrow_mut());
        let reply = self.board.call(Call::Arrival(frame));
        self.push(Call::Arrival(frame), reply);
    }

    fn take(&mut self) -> bool {
        let reply = self.board.call(Call::Take);
        let found = reply != Reply::Taken(None);
        self.push(Call::Take, reply);
        found
    }

    fn empty(&mut self) -> Result<(), String> {
        for _ in 0..=FIFO_ENTRIES / QUEUE_PLACES {
            while self.take() {}
            self.drain(RECEIVE_ONLY, NONE)?;
        }
        while self.take() {}
        if self.board.registers.fifo.borrow().is_empty() { Ok(()) } else { Err("the FIFO is not emptied".to_string()) }
    }

    fn push(&mut self, call: Call, reply: Reply) {
        match &reply {
            Reply::Arrived(Arrival::Mark) => self.counts.marks += 1,
            Reply::Arrived(Arrival::NotRecorded) => self.counts.not_recorded += 1,
            Reply::Stepped(_, Told::Lost(_)) => self.counts.lost += 1,
            Reply::State(_) => self.counts.states += 1,
            _ => {}
        }
        self.calls.push(call);
        self.replies.push(reply);
    }

    /// With a call before about one access in so many.
    fn drain(&mut self, words: Words, one_call_in: u64) -> Result<(), String> {
        let Board { registers, state } = &*self.board;
        registers.int_raw().preset(words.interrupt);
        registers.int_ena().preset(words.enable);
        registers.status().preset(words.status);
        let within = Within::default();
        let hook = hook(self.board.clone(), self.random.clone(), within.clone(), one_call_in);
        let ((), log) = trace::record(Some(hook), || probe::handle_interrupt(registers, state));
        self.push(Call::Start(words), Reply::Started);
        self.counts.drains += 1;
        self.follow(log, within.take())?;
        let state = self.board.call(Call::State);
        self.push(Call::State, state);
        Ok(())
    }

    /// The steps that the driver's accesses are, and the calls that were made before them.
    fn follow(&mut self, log: Vec<Event>, within: Vec<(usize, Call, Reply)>) -> Result<(), String> {
        let mut within = within.into_iter().peekable();
        let mut reading = Reading::new(&self.board.state);
        // The places of the states that are yet to be told the next step.
        let mut asked = Vec::new();
        for (access, event) in log.into_iter().enumerate() {
            while let Some((_, call, reply)) = within.next_if(|(before, ..)| *before == access) {
                match call {
                    Call::Arrival(_) => self.counts.arrivals_within += 1,
                    Call::Take => self.counts.takes_within += 1,
                    _ => asked.push(self.replies.len()),
                }
                self.push(call, reply);
            }
            let Some((next, command, told)) = reading.step(event)? else { continue };
            for place in asked.drain(..) {
                let Reply::State(seen) = &mut self.replies[place] else { continue };
                seen.next = next;
            }
            self.counts.notices += u64::from(command == Command::Abort);
            self.counts.stored += u64::from(matches!(event, Event::Offer { stored: true, .. }));
            self.push(Call::Step, Reply::Stepped(command, told));
        }
        if reading.is_over() { Ok(()) } else { Err("a command or a lost record is left over".to_string()) }
    }
}

impl Board {
    fn call(&self, call: Call) -> Reply {
        match call {
            Call::Arrival(frame) => Reply::Arrived(arrive(&mut self.registers.fifo.borrow_mut(), frame)),
            Call::State => Reply::State(Box::new(Seen {
                next: Next::Idle,
                fifo: self.registers.fifo.borrow().iter().copied().collect(),
                queue: self.state.rx_queue.waiting().into_iter().map(record).collect(),
            })),
            _ => Reply::Taken(self.state.rx_queue.try_receive().map(record)),
        }
    }
}

fn hook(
    board: Rc<Board>,
    random: Rc<RefCell<Random>>,
    within: Within,
    one_call_in: u64,
) -> Box<dyn FnMut(&'static str)> {
    let (mut access, mut made) = (0, 0);
    Box::new(move |_| {
        let random = &mut random.borrow_mut();
        while made < MOST_WITHIN && one_call_in != NONE && random.one_in(1 + one_call_in) {
            made += 1;
            let call = if random.one_in(2) { Call::Take } else { Call::Arrival(random_frame(random)) };
            within.borrow_mut().push((access, call, board.call(call)));
        }
        if random.one_in(ACCESSES_TO_A_STATE) {
            within.borrow_mut().push((access, Call::State, board.call(Call::State)));
        }
        access += 1;
    })
}

/// Which step an access of the driver is.
struct Reading {
    receive_queue: usize,
    transmit_waker: usize,
    error_waker: usize,
    lost: VecDeque<Record>,
    looked: bool,
    command: Command,
    transmit_wakes: u8,
    error_wakes: u8,
}

impl Reading {
    /// After a drain, which left the records that it lost.
    fn new(state: &TwaiAsyncState) -> Self {
        Reading {
            receive_queue: state.rx_queue.address(),
            transmit_waker: state.tx_waker.address(),
            error_waker: state.err_waker.address(),
            lost: state.rx_queue.take_lost().into_iter().map(record).collect(),
            looked: false,
            command: Command::Nothing,
            transmit_wakes: 0,
            error_wakes: 0,
        }
    }

    /// The notice is one step, at its offer, and the command before it is that step's. The finish is the enable word's
    /// write.
    fn step(&mut self, event: Event) -> Result<Option<(Next, Command, Told)>, String> {
        let (next, told) = match event {
            Event::Read { register: "rx_message_cnt", .. } => {
                self.looked = true;
                (Next::Look, Told::Done)
            }
            Event::Read { register: "status", .. } if self.looked => (Next::Miss, Told::Done),
            Event::Data => (Next::Copy, Told::Done),
            Event::Write { register: "cmd", word: 4 } => {
                self.command = Command::Release;
                (Next::Release, Told::Done)
            }
            Event::Write { register: "cmd", word: 2 } => {
                self.command = Command::Abort;
                return Ok(None);
            }
            Event::Offer { channel, stored: true } if channel == self.receive_queue => (self.offer(), Told::Done),
            Event::Offer { channel, stored: false } if channel == self.receive_queue => {
                (self.offer(), Told::Lost(self.lost.pop_front().ok_or("a record was lost and not kept")?))
            }
            Event::Wake { waker } if waker == self.transmit_waker => {
                self.transmit_wakes += 1;
                return Ok(None);
            }
            Event::Wake { waker } if waker == self.error_waker => {
                self.error_wakes += 1;
                return Ok(None);
            }
            Event::Write { register: "int_ena", word } => {
                let (transmit_wakes, error_wakes) = (self.transmit_wakes, self.error_wakes);
                (Next::Finish, Told::Finished { transmit_wakes, error_wakes, enable: word })
            }
            Event::Read { .. } => return Ok(None),
            other => return Err(format!("no step: {other:02x?}")),
        };
        Ok(Some((next, std::mem::replace(&mut self.command, Command::Nothing), told)))
    }

    fn offer(&self) -> Next {
        if self.command == Command::Abort { Next::Notice } else { Next::Offer }
    }

    fn is_over(&self) -> bool {
        self.command == Command::Nothing && self.lost.is_empty()
    }
}

fn record(received: Result<EspTwaiFrame, EspTwaiError>) -> Record {
    match received {
        Ok(frame) => Record::Frame(*probe::bytes(&frame)),
        Err(EspTwaiError::EmbeddedHAL(ErrorKind::Overrun)) => Record::Overrun,
        Err(EspTwaiError::BusOff) => Record::BusOff,
        Err(other) => panic!("not an error of a drain: {other:?}"),
    }
}

/// Any word, or one that has receive and the named bits with about even chances; the status half the time bus-off.
fn random_words(random: &mut Random) -> Words {
    let word = random.word() as u32;
    let interrupt = match random.below(8) {
        0 => word,
        1 => word & 0xFE,
        _ => word & 0xFF | 1,
    };
    let status = random.word() as u32 | if random.one_in(2) { 0xC0 } else { 0 };
    Words { interrupt, enable: random.word() as u32, status }
}

/// Of any length, half of them short.
pub fn random_frame(random: &mut Random) -> Frame {
    let mut frame: [u8; FRAME_LENGTH] = random.bytes(FRAME_LENGTH).try_into().expect("as long as a frame");
    if random.one_in(2) {
        frame[0] = frame[0] & 0x70 | random.below(3) as u8;
    }
    frame
}
