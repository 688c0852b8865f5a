//! driver_drain SIDE TIMES: ten frames stand in the mock FIFO, and ten records are taken from the channel, TIMES times.
//! SIDE `drain`: between the two the driver's `handle_interrupt` moves them. SIDE `setup`: they are thrown away.
use std::hint::black_box;

use original::twai::probe::{self, Entry, RegisterBlock, TwaiAsyncState};

const FRAMES: usize = 10;
/// A standard frame of three bytes.
const FRAME: [u8; 13] = [0x03, 0xB4, 0xA0, 1, 2, 3, 0, 0, 0, 0, 0, 0, 0];
const RECEIVE: u32 = 1;

fn main() {
    let arguments: Vec<String> = std::env::args().skip(1).collect();
    let (registers, state) = (RegisterBlock::default(), TwaiAsyncState::new());
    let times = arguments[1].parse().expect("a number of times");
    let taken = match arguments[0].as_str() {
        "drain" => repeat(times, &registers, &state, || probe::handle_interrupt(black_box(&registers), &state)),
        "setup" => repeat(times, &registers, &state, || registers.fifo.borrow_mut().clear()),
        _ => panic!("usage: driver_drain drain|setup TIMES"),
    };
    println!("{taken}");
}

fn repeat(times: u64, registers: &RegisterBlock, state: &TwaiAsyncState, work: impl Fn()) -> usize {
    let mut taken = 0;
    for _ in 0..times {
        registers.fifo.borrow_mut().extend([Entry::Whole(black_box(FRAME)); FRAMES]);
        registers.int_raw().preset(RECEIVE);
        work();
        taken += (0..FRAMES).filter(|_| black_box(state.rx_queue.try_receive()).is_some()).count();
    }
    taken
}
