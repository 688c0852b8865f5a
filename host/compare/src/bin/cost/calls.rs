//! The rows of the identifiers, the two short constructors, the readers that answer a number, and the bytes in use.
use std::hint::black_box;

use oracle::{
    cases::OUT_LENGTH,
    driver::to_id,
    face::{FRAME_LENGTH, Face},
};
use original::twai::{EspTwaiFrame, ExtendedId, StandardId, probe};

use crate::repeat;

pub struct Row {
    pub name: &'static str,
    call: Call,
}

#[derive(Clone, Copy)]
enum Call {
    StandardIdNew,
    ExtendedIdNew,
    StandardId,
    New,
    NewSelfReception,
    IsExtendedFormat,
    IsRemoteRequest,
    IsSelfReception,
    DataLengthCode,
    DataLength,
    DataOffset,
    AsSlice,
}

const fn row(name: &'static str, call: Call) -> Row {
    Row { name, call }
}

pub const ROWS: [Row; 12] = [
    row("standard identifier", Call::StandardIdNew),
    row("extended identifier", Call::ExtendedIdNew),
    row("base identifier of an extended one", Call::StandardId),
    row("new, extended, 3 bytes", Call::New),
    row("new_self_reception, extended, 3 bytes", Call::NewSelfReception),
    row("read format", Call::IsExtendedFormat),
    row("read remote request", Call::IsRemoteRequest),
    row("read self-reception", Call::IsSelfReception),
    row("read length code", Call::DataLengthCode),
    row("read data length", Call::DataLength),
    row("read data offset", Call::DataOffset),
    row("read bytes in use, extended, 3 bytes", Call::AsSlice),
];

const STANDARD: u16 = 0x5A5;
const EXTENDED: u32 = 0x1234_5678;
const DATA: [u8; 3] = [1, 2, 3];

fn frame() -> [u8; FRAME_LENGTH] {
    let id = to_id(true, EXTENDED).expect("an identifier within its limit");
    *probe::bytes(&EspTwaiFrame::new(id, &DATA).expect("a sound frame"))
}

pub fn by_face(face: &Face, row: &Row, times: u64) {
    let (frame, mut lent) = (frame(), [0; OUT_LENGTH]);
    let (to, room) = (lent.as_mut_ptr(), lent.len());
    let construct = match row.call {
        Call::New => face.new,
        _ => face.new_self_reception,
    };
    let read = match row.call {
        Call::IsExtendedFormat => face.is_extended_format,
        Call::IsRemoteRequest => face.is_remote_request,
        Call::IsSelfReception => face.is_self_reception,
        Call::DataLengthCode => face.data_length_code,
        Call::DataLength => face.data_length,
        _ => face.data_offset,
    };
    match row.call {
        Call::StandardIdNew => repeat(times, || unsafe {
            black_box((face.standard_id_new)(black_box(STANDARD)));
        }),
        Call::ExtendedIdNew => repeat(times, || unsafe {
            black_box((face.extended_id_new)(black_box(EXTENDED)));
        }),
        Call::StandardId => repeat(times, || unsafe {
            black_box((face.extended_id_standard_id)(black_box(EXTENDED)));
        }),
        Call::New | Call::NewSelfReception => repeat(times, || unsafe {
            let data = black_box(&DATA);
            black_box(construct(true, black_box(EXTENDED), data.as_ptr(), data.len(), to, FRAME_LENGTH));
        }),
        Call::AsSlice => repeat(times, || unsafe {
            let frame = black_box(&frame);
            black_box((face.as_slice)(frame.as_ptr(), frame.len(), to, room));
        }),
        _ => repeat(times, || unsafe {
            let frame = black_box(&frame);
            black_box(read(frame.as_ptr(), frame.len()));
        }),
    }
}

pub fn bare(row: &Row, times: u64) {
    let bytes = frame();
    let frame = probe::as_frame(&bytes);
    macro_rules! times {
        ($answer:expr) => {
            repeat(times, || {
                black_box($answer);
            })
        };
    }
    match row.call {
        Call::StandardIdNew => times!(StandardId::new(black_box(STANDARD))),
        Call::ExtendedIdNew => times!(ExtendedId::new(black_box(EXTENDED))),
        Call::StandardId => times!(ExtendedId::new(black_box(EXTENDED)).map(|id| id.standard_id())),
        Call::New => times!(to_id(true, black_box(EXTENDED)).and_then(|id| EspTwaiFrame::new(id, black_box(&DATA)))),
        Call::NewSelfReception => {
            let make = EspTwaiFrame::new_self_reception;
            times!(to_id(true, black_box(EXTENDED)).and_then(|id| make(id, black_box(&DATA))))
        }
        Call::IsExtendedFormat => times!(probe::is_extended_format(black_box(frame))),
        Call::IsRemoteRequest => times!(black_box(frame).is_remote_request()),
        Call::IsSelfReception => times!(black_box(frame).is_self_reception()),
        Call::DataLengthCode => times!(black_box(frame).data_length_code()),
        Call::DataLength => times!(black_box(frame).data_length()),
        Call::DataOffset => times!(probe::data_offset(black_box(frame))),
        Call::AsSlice => times!(probe::as_slice(black_box(frame))),
    }
}
