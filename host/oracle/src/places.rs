//! Calls in any order on a fresh box, and what its answers must come to, whatever the box: every arrival that was
//! recorded ends in one place, told by its position; refusals come in their cases and no others; takes answer in the
//! order of the queue; and each drain does what it owes.
use std::collections::VecDeque;

use original::twai::probe::Entry;

use crate::{
    course::random_frame,
    random::Random,
    receive_box::{self, FIFO_ENTRIES, QUEUE_PLACES},
    script::{Arrival, Call, Command, Frame, Record, Reply, Told, Words},
};

const DRAIN_RUNS: u8 = 8;
const NO_DRAIN_RUNS: u8 = 9;

/// How often arrivals, takes, starts and steps come in a stretch of calls.
const STRETCHES: [[u64; 4]; 6] =
    [[1, 1, 1, 1], [20, 1, 1, 1], [1, 20, 1, 1], [10, 0, 1, 20], [4, 1, 1, 30], [3, 3, 1, 20]];
const LONGEST_STRETCH: u64 = 400;

/// At least as many calls as asked for, any of them at any time, and then what empties the box.
pub fn random_calls(count: u64, seed: u64) -> Vec<Call> {
    let random = &mut Random::from_seed(seed);
    let mut calls = Vec::new();
    let mut arrivals = 0;
    while (calls.len() as u64) < count {
        let stretch = STRETCHES[random.below(STRETCHES.len() as u64) as usize];
        for _ in 0..random.below(LONGEST_STRETCH) {
            calls.push(match drawn(stretch, random) {
                0 => {
                    arrivals += 1;
                    Call::Arrival(unique(random_frame(random), arrivals))
                }
                1 => Call::Take,
                2 => Call::Start(random_words(random)),
                _ => Call::Step,
            });
        }
    }
    empty(&mut calls);
    calls
}

/// A place, as often as the number there says.
fn drawn(often: [u64; 4], random: &mut Random) -> usize {
    let mut left = random.below(often.iter().sum());
    let drawn = |times: &u64| {
        let here = left < *times;
        left = left.saturating_sub(*times);
        here
    };
    often.iter().position(drawn).expect("less than the sum")
}

/// Enough steps for any drain, takes for any queue, and drains for any FIFO.
fn empty(calls: &mut Vec<Call>) {
    for _ in 0..4 {
        calls.extend([Call::Step; 5 * (QUEUE_PLACES + 1) + 3]);
        calls.extend([Call::Take; QUEUE_PLACES + 1]);
        calls.push(Call::Start(Words { interrupt: 1, enable: 0, status: 0 }));
    }
    calls.extend([Call::Step; 2]);
}

/// Mostly with receive set; bus-off one time in three.
fn random_words(random: &mut Random) -> Words {
    let interrupt = random.word() as u32 | u32::from(!random.one_in(8));
    let status = random.word() as u32 | if random.one_in(3) { 0xC0 } else { 0 };
    Words { interrupt, enable: random.word() as u32, status }
}

/// The frame with its number where every frame has bytes: those after the first.
fn unique(mut frame: Frame, number: u32) -> Frame {
    frame[1..5].copy_from_slice(&number.to_be_bytes());
    frame
}

#[derive(Default, Clone, Copy)]
pub struct Counts {
    pub calls: u64,
    pub recorded: u64,
    pub not_recorded: u64,
    pub taken: u64,
    pub lost: u64,
    pub notices: u64,
    pub drains: u64,
    pub refused_start: u64,
    pub refused_step: u64,
}

impl Counts {
    pub fn add(&mut self, other: &Counts) {
        self.calls += other.calls;
        self.recorded += other.recorded;
        self.not_recorded += other.not_recorded;
        self.taken += other.taken;
        self.lost += other.lost;
        self.notices += other.notices;
        self.drains += other.drains;
        self.refused_start += other.refused_start;
        self.refused_step += other.refused_step;
    }
}

/// What the answers so far have told.
#[derive(Default)]
struct Ledger {
    /// Recorded and not released.
    fifo: VecDeque<Entry>,
    /// Released, and its offer is the next step.
    released: Option<Entry>,
    /// Offered, not lost and not taken.
    queue: VecDeque<Record>,
    drain: Option<Drain>,
    counts: Counts,
}

struct Drain {
    words: Words,
    noticed: bool,
    move_lost: bool,
    /// Whether the FIFO was empty at the step before.
    was_empty: bool,
}

/// Follows the answers; an error where one can't be.
pub fn check(calls: &[Call], replies: &[Reply]) -> Result<Counts, String> {
    let mut ledger = Ledger::default();
    for (place, (call, reply)) in calls.iter().zip(replies).enumerate() {
        ledger.follow(*call, reply).map_err(|why| format!("call {place}, {call:02x?}: {reply:02x?}: {why}"))?;
    }
    if !(ledger.fifo.is_empty() && ledger.released.is_none() && ledger.queue.is_empty() && ledger.drain.is_none()) {
        return Err("the box is not empty at the end".to_string());
    }
    Ok(ledger.counts)
}

fn demand(holds: bool, otherwise: &str) -> Result<(), String> {
    if holds { Ok(()) } else { Err(otherwise.to_string()) }
}

impl Ledger {
    fn follow(&mut self, call: Call, reply: &Reply) -> Result<(), String> {
        self.counts.calls += 1;
        match (call, reply.clone()) {
            (Call::Arrival(frame), Reply::Arrived(arrival)) => self.arrived(frame, arrival),
            (Call::Take, Reply::Taken(record)) => self.taken(record),
            (Call::Start(words), Reply::Started) => self.started(words),
            (Call::Start(_), Reply::Refused(DRAIN_RUNS)) => {
                self.counts.refused_start += 1;
                demand(self.drain.is_some(), "no drain runs")
            }
            (Call::Step, Reply::Refused(NO_DRAIN_RUNS)) => {
                self.counts.refused_step += 1;
                demand(self.drain.is_none(), "a drain runs")
            }
            (Call::Step, Reply::Stepped(command, told)) => self.stepped(command, told),
            _ => Err("no answer to this call".to_string()),
        }
    }

    fn arrived(&mut self, frame: Frame, arrival: Arrival) -> Result<(), String> {
        demand(receive_box::arrive(&mut self.fifo, frame) == arrival, "not by the weights")?;
        match arrival {
            Arrival::NotRecorded => self.counts.not_recorded += 1,
            _ => self.counts.recorded += 1,
        }
        demand(self.fifo.len() <= FIFO_ENTRIES, "too many entries")
    }

    fn taken(&mut self, record: Option<Record>) -> Result<(), String> {
        self.counts.taken += u64::from(record.is_some());
        demand(record == self.queue.pop_front(), "not the oldest record of the queue")
    }

    fn started(&mut self, words: Words) -> Result<(), String> {
        demand(self.drain.is_none(), "a drain runs")?;
        self.counts.drains += 1;
        self.drain = Some(Drain { words, noticed: false, move_lost: false, was_empty: false });
        Ok(())
    }

    fn stepped(&mut self, command: Command, told: Told) -> Result<(), String> {
        let Some(mut drain) = self.drain.take() else { return Err("no drain runs".to_string()) };
        let was_empty = self.fifo.is_empty();
        if let Some(entry) = self.released.take() {
            demand(command == Command::Nothing, "a command at an offer")?;
            self.offered(receive_box::record_of(entry), told)?;
            drain.move_lost = told != Told::Done;
        } else if let Told::Finished { .. } = told {
            demand(command == Command::Nothing, "a command at the finish")?;
            return finished(&drain, told);
        } else {
            match command {
                Command::Nothing => demand(told == Told::Done, "a record lost without an offer")?,
                Command::Abort => {
                    demand(drain.words.notice_due() && !drain.noticed, "no notice is due")?;
                    drain.noticed = true;
                    self.counts.notices += 1;
                    self.offered(Record::BusOff, told)?;
                }
                Command::Release => {
                    demand(drain.words.receive_due() && !drain.move_lost, "no move is due")?;
                    demand(drain.noticed == drain.words.notice_due(), "a move before the notice")?;
                    self.released = self.fifo.pop_front();
                    demand(told == Told::Done && self.released.is_some(), "nothing to release")?;
                }
            }
        }
        self.drain = Some(Drain { was_empty, ..drain });
        Ok(())
    }

    /// Stored last, or lost by a full queue and only by that.
    fn offered(&mut self, record: Record, told: Told) -> Result<(), String> {
        if self.queue.len() == QUEUE_PLACES {
            self.counts.lost += 1;
            return demand(told == Told::Lost(record), "not the record that the full queue loses");
        }
        self.queue.push_back(record);
        demand(told == Told::Done, "a record lost though there is room")
    }
}

/// The notice if due; with receive set, moves up to a lost one or a look that found nothing.
fn finished(drain: &Drain, told: Told) -> Result<(), String> {
    demand(drain.noticed == drain.words.notice_due(), "a notice is due")?;
    demand(!drain.words.receive_due() || drain.move_lost || drain.was_empty, "moves are due")?;
    demand(told == drain.words.finished(), "other wakes, or another enable word")
}
