//! The driver runs on the mock registers from end to end.
use original::{
    gpio::NoPin,
    peripherals::TWAI0,
    twai::{
        BaudRate, EspTwaiFrame, StandardId, TwaiConfiguration, TwaiMode,
        filter::SingleStandardFilter,
        probe::{self, Entry, RegisterBlock, TwaiAsyncState},
    },
};
use trace::Event;

const FRAME: [u8; 13] = [2, 0xFF, 0xE0, 1, 2, 0, 0, 0, 0, 0, 0, 0, 0];

#[test]
fn configures_and_transmits() {
    let registers = probe::fresh_registers();
    let peripheral = unsafe { TWAI0::steal() };
    let mut configuration = TwaiConfiguration::new(peripheral, NoPin, NoPin, BaudRate::B500K, TwaiMode::Normal);
    configuration.set_filter(SingleStandardFilter::new(b"xxxxxxxxxx0", b"x", [b"xxxxxxxx", b"xxxxxxxx"]));
    let mut twai = configuration.start();
    registers.status().preset(1 << 2);
    twai.transmit(&EspTwaiFrame::new(StandardId::MAX, &FRAME[3..5]).unwrap()).unwrap();
    let sent = registers.sent.borrow();
    assert_eq!((sent.len(), sent[0].command), (1, 1));
    let written: Vec<u8> = sent[0].bytes.iter().map_while(|byte| *byte).collect();
    assert_eq!(written, FRAME[..5]);
}

#[test]
fn receives_what_stands_at_the_front() {
    let registers = probe::fresh_registers();
    registers.fifo.borrow_mut().extend([Entry::Whole(FRAME), Entry::OverrunMark]);
    let mut receiver = probe::receiver();
    assert_eq!(probe::bytes(&receiver.receive().unwrap()), &FRAME);
    assert!(receiver.receive().is_err());
    assert_eq!(*registers.fifo.borrow(), [Entry::OverrunMark]);
}

#[test]
fn drains_until_the_queue_is_full() {
    let (registers, state) = (RegisterBlock::default(), TwaiAsyncState::new());
    registers.fifo.borrow_mut().extend([Entry::Whole(FRAME); 40]);
    registers.int_raw().preset(1);
    let ((), log) = trace::record(None, || probe::handle_interrupt(&registers, &state));
    let stored = log.iter().filter(|event| matches!(event, Event::Offer { stored: true, .. })).count();
    assert_eq!((stored, state.rx_queue.take_lost().len(), registers.fifo.borrow().len()), (32, 1, 7));
}
