//! What docs/ABI.md and host/c/worked.c work out, through the wrappers.
use chherbolat::{
    CodeMask, ExtendedId, Filter, Format, Frame, Id, Kind, PatternByte, ReceiveBox, Refusal, Refused, Result, StandardId,
    decision::{self, Command, Decision, Outcome},
    file, raw,
    receive_box::{self, Arrival, Record, STATE_LENGTH, Step, Told, Words},
};

fn refused<T>(result: Result<T>) -> (u32, u64) {
    let Refused { refusal, carries } = result.err().expect("not refused");
    (refusal.number(), carries)
}

fn standard(raw: u16) -> StandardId {
    StandardId::new(raw).unwrap()
}

#[test]
fn identifiers() {
    assert_eq!(refused(StandardId::new(0x800)), (1, 0));
    assert_eq!(refused(ExtendedId::new(0x2000_0000)), (1, 0));
    assert_eq!(ExtendedId::new(0x1234_5678).unwrap().standard_id(), standard(0x48D));
}

#[test]
fn frames_built_and_read() {
    let frame = Frame::new(standard(0x7FF), &[]).unwrap();
    assert_eq!(frame.bytes()[..3], [0x00, 0xFF, 0xE0]);
    assert_eq!(refused(Frame::new(standard(0x7FF), &[0; 9])), (2, 9));
    assert_eq!(refused(Frame::new_from_parameters(standard(0x7FF), true, false, 1, &[])), (3, 1));
    let asking = Frame::new_with_remote_length(standard(0x123), true, false, 8, &[]).unwrap();
    assert_eq!(asking.as_slice(), [0x48, 0x24, 0x60]);
    assert_eq!(refused(Frame::new_with_remote_length(standard(0x123), true, false, 9, &[])), (3, 9));
    let own = Frame::new_self_reception(standard(0x124), &[0xAB]).unwrap();
    assert_eq!(own.as_slice(), [0x11, 0x24, 0x80, 0xAB]);
    assert_eq!((own.data(), own.identifier()), (&[0xAB][..], Id::Standard(standard(0x124))));
    assert!(own.is_self_reception() && !own.is_remote_request() && !own.is_extended_format());
    let long = Frame::new(ExtendedId::new(0x1234_5678).unwrap(), &[1, 2]).unwrap();
    assert_eq!((long.identifier().as_raw(), long.data_length_code(), long.data()), (0x1234_5678, 2, &[1, 2][..]));
}

/// `data` shows where `chherbolat_data` copies from.
#[test]
fn data_is_that_of_the_library() {
    for info in 0..=255 {
        let frame = Frame::from_bytes([info, 1, 2, 3, 4, 5, 6, 7, 8, 9, 10, 11, 12]);
        let mut out = [0; 8];
        let copied = unsafe { raw::chherbolat_data(frame.bytes().as_ptr(), 13, out.as_mut_ptr(), out.len()) };
        assert_eq!(frame.data(), &out[..copied.value as usize]);
    }
}

#[test]
fn filters() {
    let any = "xxxxxxxxxxx";
    let even = Filter::single_standard("xxxxxxxxxx0", "x", "xxxxxxxx", "xxxxxxxx").unwrap();
    assert_eq!(even, Filter { kind: Kind::Single, registers: [0, 0, 0, 0, 0xFF, 0xDF, 0xFF, 0xFF] });
    assert!(even.accepts(&Frame::new(standard(0x124), &[]).unwrap()));
    assert!(!even.accepts(&Frame::new(standard(0x7FF), &[]).unwrap()));
    assert_eq!(refused(Filter::single_standard(any, "x", "xxxxxxx", "xxxxxxxx")), (4, 2));
    let upper = Filter::single_standard(any, "x", "xxxXxxxx", "xxxxxxxx").err().unwrap();
    assert_eq!(upper.pattern_byte(), Some(PatternByte { field: 2, place: 3, found: b'X' }));
    let dual = Filter::dual_standard(any, "x", "10100101", any, "x").unwrap();
    assert_eq!(dual, Filter { kind: Kind::Dual, registers: [0, 0x0A, 0, 5, 0xFF, 0xF0, 0xFF, 0xF0] });
    let (id, free, bit) = (CodeMask { code: 0, mask: 0 }, CodeMask { code: 0, mask: 0 }, no_bit());
    assert_eq!(Filter::dual_standard_from_code_mask(id, bit, CodeMask { code: 0xA5, mask: 0xFF }, id, bit), Ok(dual));
    let odd = CodeMask { code: 0x7FF, mask: 1 };
    let odd = Filter::single_standard_from_code_mask(odd, bit, free, free).unwrap();
    assert_eq!(odd.registers, [0xFF, 0xE0, 0, 0, 0xFF, 0xDF, 0xFF, 0xFF]);
}

fn no_bit() -> CodeMask<bool> {
    CodeMask { code: false, mask: false }
}

#[test]
fn extended_filters() {
    let single = Filter::single_extended("1xxxxxxxxxxxxxxxxxxxxxxxxxxx0", "1").unwrap();
    let id = CodeMask { code: 0x1000_0000, mask: 0x1000_0001 };
    assert_eq!(single.registers, [0x80, 0, 0, 4, 0x7F, 0xFF, 0xFF, 0xF3]);
    assert_eq!(Filter::single_extended_from_code_mask(id, CodeMask { code: true, mask: true }), Ok(single));
    let dual = Filter::dual_extended("xxxxxxxxx0000xxx", "xxxxxxxxx1111xxx").unwrap();
    let (first, second) = (CodeMask { code: 0, mask: 0x78 }, CodeMask { code: 0x78, mask: 0x78 });
    assert_eq!(dual.registers, [0, 0, 0, 0x78, 0xFF, 0x87, 0xFF, 0x87]);
    assert_eq!(Filter::dual_extended_from_code_mask(first, second), Ok(dual));
}

#[test]
fn filters_from_lists() {
    let two = Filter::from_list(Format::Standard, &[0x100, 0x104]).unwrap();
    assert_eq!((two.pattern(), two.through), ("00100000x00", 2));
    assert_eq!(two.filter.registers, [0x20, 0, 0, 0, 0, 0x9F, 0xFF, 0xFF]);
    assert_eq!(refused(Filter::from_list(Format::Standard, &[0x100, 0x800])), (1, 1));
    assert_eq!(refused(Filter::from_list(Format::Extended, &[])), (15, 0));
}

#[test]
fn decisions() {
    let decided = |outcome, command, in_flight| Decision { outcome, command, in_flight };
    assert_eq!(decision::receive(0x101), decided(Outcome::Overrun, Command::Nothing, false));
    assert_eq!(decision::receive(0x001), decided(Outcome::Done, Command::ReadAndRelease, false));
    assert_eq!(decision::receive(0x000), decided(Outcome::WouldBlock, Command::Nothing, false));
    assert_eq!(decision::transmit(0x000, true), decided(Outcome::TransmissionAborted, Command::Abort, false));
    assert_eq!(decision::transmit(0x084, true), decided(Outcome::BusOff, Command::Nothing, false));
    assert_eq!(decision::poll(0x004, false, false), decided(Outcome::Pending, Command::Write, true));
}

#[test]
fn a_drain() {
    let frame = Frame::new(standard(0x124), &[0xAB]).unwrap();
    let mut receive_box = ReceiveBox::new();
    assert_eq!(receive_box.arrive(&frame), Ok(Arrival::Whole));
    assert_eq!(refused(receive_box.step()), (9, 0));
    assert_eq!(receive_box.start(Words { interrupt: 3, enable: 0xFF, status: 1 }), Ok(()));
    assert_eq!(
        receive_box.start(Words { interrupt: 0, enable: 0, status: 0 }).unwrap_err().refusal,
        Refusal::DrainRuns
    );
    let steps: Vec<Step> = (0..7).map(|_| receive_box.step().unwrap()).collect();
    assert!(steps[..6].iter().all(|step| step.told == Told::Done));
    assert_eq!(steps[3].command, receive_box::Command::Release);
    assert_eq!(steps[6].told, Told::Finished { transmit_wakes: 1, error_wakes: 0, enable: 0xFD });
    assert_eq!(receive_box.take(), Ok(Some(Record::Frame(frame))));
    assert_eq!(receive_box.take(), Ok(None));
}

#[test]
fn states() {
    let mut state = [0; STATE_LENGTH];
    state[1348] = 32; // the queue is full
    let mut full = ReceiveBox::from_state(&state).unwrap();
    assert_eq!(full.state(), &state);
    full.start(Words { interrupt: 4, enable: 0, status: 0xC0 }).unwrap();
    let lost = Step { told: Told::Lost(Record::BusOff), command: receive_box::Command::Abort };
    assert_eq!(full.step(), Ok(lost));
    state[897] = 65;
    assert_eq!(refused(ReceiveBox::from_state(&state).unwrap().take()), (10, 0));
    assert_eq!(refused(ReceiveBox::from_state(&[0xFF; STATE_LENGTH])), (10, 0));
}

#[test]
fn files() {
    let filter = [0, 0, 0, 0, 0, 0xFF, 0xDF, 0xFF, 0xFF];
    let frames = [[1, 0x24, 0x80, 0xAB, 0, 0, 0, 0, 0, 0, 0, 0, 0], [0, 0xFF, 0xE0, 0, 0, 0, 0, 0, 0, 0, 0, 0, 0]];
    let (mut out, mut text) = ([0; 39], [0; 100]);
    let written = file::write(&filter, frames.as_flattened(), &mut out).unwrap();
    let sections = file::read(written).unwrap();
    assert_eq!((sections.filters, sections.frames, sections.filters_start, sections.frames_start), (1, 2, 1, 12));
    assert_eq!(file::report(written, &mut text), Ok("0 1\n1 0\naccepted 1\n"));
    assert_eq!(refused(file::report(written, &mut [0; 18])), (6, 19));
    assert_eq!(refused(file::read(&written[..37])), (11, 25));
}
