//! cost list: the names of what can be counted. cost ROW SIDE TIMES: runs row number ROW (from 0), TIMES times.
//! SIDE: `driver` and `library` through the face of docs/ABI.md, `bare` for the driver's own function, `nothing` for
//! the loop alone. Plain Rust stands in for the driver where it has no such function.
//! The cost of one run is a difference of two instruction counts (see the script host/cost).
use std::hint::black_box;

use compare::library::LIBRARY;
use oracle::{
    cases::OUT_LENGTH,
    driver::{DRIVER, to_id},
    face::{FRAME_LENGTH, Face},
};
use original::twai::{EspTwaiFrame, probe};

mod calls;
mod decisions;
mod filters;
mod lists;
mod matcher;
mod remote_lengths;

struct Row {
    name: &'static str,
    work: Work,
    call: Call,
}

enum Work {
    Build,
    ReadIdentifier,
    ReadData,
}

/// What is built, or what the frame that is read was built from.
struct Call {
    extended: bool,
    id: u32,
    remote_request: bool,
    dlc: usize,
    data: &'static [u8],
}

impl Call {
    const fn new((extended, id): (bool, u32), remote_request: bool, dlc: usize, length: usize) -> Self {
        const DATA: [u8; 9] = [1, 2, 3, 4, 5, 6, 7, 8, 9];
        Call { extended, id, remote_request, dlc, data: DATA.split_at(length).0 }
    }
}

const fn build(name: &'static str, call: Call) -> Row {
    Row { name, work: Work::Build, call }
}

const fn read_identifier(name: &'static str, id: (bool, u32)) -> Row {
    Row { name, work: Work::ReadIdentifier, call: Call::new(id, false, 8, 8) }
}

const fn read_data(name: &'static str, id: (bool, u32), length: usize) -> Row {
    Row { name, work: Work::ReadData, call: Call::new(id, false, length, length) }
}

const STANDARD: (bool, u32) = (false, 0x5A5);
const EXTENDED: (bool, u32) = (true, 0x1234_5678);

const ROWS: [Row; 18] = [
    build("build standard, 0 bytes", Call::new(STANDARD, false, 0, 0)),
    build("build standard, 3 bytes", Call::new(STANDARD, false, 3, 3)),
    build("build standard, 8 bytes", Call::new(STANDARD, false, 8, 8)),
    build("build extended, 0 bytes", Call::new(EXTENDED, false, 0, 0)),
    build("build extended, 3 bytes", Call::new(EXTENDED, false, 3, 3)),
    build("build extended, 8 bytes", Call::new(EXTENDED, false, 8, 8)),
    build("refuse 1 (standard, 0x800)", Call::new((false, 0x800), false, 8, 8)),
    build("refuse 1 (extended, 0x20000000)", Call::new((true, 0x2000_0000), false, 8, 8)),
    build("refuse 2 (9 bytes)", Call::new(STANDARD, false, 8, 9)),
    build("refuse 2 (remote with data)", Call::new(STANDARD, true, 1, 1)),
    build("refuse 3 (code 16)", Call::new(STANDARD, false, 16, 8)),
    build("refuse 3 (3 bytes, code 4)", Call::new(STANDARD, false, 4, 3)),
    read_identifier("read identifier, standard", STANDARD),
    read_identifier("read identifier, extended", EXTENDED),
    read_data("read data, standard, 0 bytes", STANDARD, 0),
    read_data("read data, standard, 3 bytes", STANDARD, 3),
    read_data("read data, standard, 8 bytes", STANDARD, 8),
    read_data("read data, extended, 8 bytes", EXTENDED, 8),
];

fn main() {
    let arguments: Vec<String> = std::env::args().skip(1).collect();
    let arguments: Vec<&str> = arguments.iter().map(String::as_str).collect();
    match arguments[..] {
        ["list"] => names().for_each(|name| println!("{name}")),
        [row, side, times] => run(row.parse().unwrap(), side, times.parse().unwrap()),
        _ => panic!("usage: cost list, or cost ROW SIDE TIMES"),
    }
}

fn names() -> impl Iterator<Item = &'static str> {
    let frames = ROWS.iter().map(|row| row.name);
    let filters = filters::ROWS.iter().map(|row| row.name);
    let matches = matcher::ROWS.iter().map(|row| row.name);
    let calls = calls::ROWS.iter().map(|row| row.name);
    let decisions = decisions::ROWS.iter().map(|row| row.name);
    let lists = lists::ROWS.iter().map(|row| row.name);
    let remote_lengths = remote_lengths::ROWS.iter().map(|row| row.name);
    frames.chain(filters).chain(matches).chain(calls).chain(decisions).chain(lists).chain(remote_lengths)
}

/// Each of those that it calls is compiled apart: a row more in one leaves the counts of the others as they are.
fn run(row: usize, side: &str, times: u64) {
    let filters = ROWS.len();
    let matches = filters + filters::ROWS.len();
    let calls = matches + matcher::ROWS.len();
    let decisions = calls + calls::ROWS.len();
    let lists = decisions + decisions::ROWS.len();
    let remote_lengths = lists + lists::ROWS.len();
    if row < filters {
        run_frames(&ROWS[row], side, times);
    } else if row < matches {
        run_filters(&filters::ROWS[row - filters], side, times);
    } else if row < calls {
        run_matcher(&matcher::ROWS[row - matches], side, times);
    } else if row < decisions {
        run_calls(&calls::ROWS[row - calls], side, times);
    } else if row < lists {
        run_decisions(&decisions::ROWS[row - decisions], side, times);
    } else if row < remote_lengths {
        run_lists(&lists::ROWS[row - lists], side, times);
    } else {
        run_remote_lengths(&remote_lengths::ROWS[row - remote_lengths], side, times);
    }
}

#[inline(never)]
fn run_calls(row: &calls::Row, side: &str, times: u64) {
    match side {
        "driver" => calls::by_face(black_box(&DRIVER), row, times),
        "library" => calls::by_face(black_box(&LIBRARY), row, times),
        "bare" => calls::bare(row, times),
        _ => repeat(times, || {
            black_box(row);
        }),
    }
}

#[inline(never)]
fn run_decisions(row: &decisions::Row, side: &str, times: u64) {
    match side {
        "driver" => decisions::by_plain_face(row, times),
        "library" => decisions::by_library(row, times),
        "bare" => decisions::bare(row, times),
        _ => repeat(times, || {
            black_box(row);
        }),
    }
}

#[inline(never)]
fn run_lists(row: &lists::Row, side: &str, times: u64) {
    match side {
        "driver" => lists::by_plain_face(row, times),
        "library" => lists::by_library(row, times),
        "bare" => lists::bare(row, times),
        _ => repeat(times, || {
            black_box(row);
        }),
    }
}

#[inline(never)]
fn run_remote_lengths(row: &remote_lengths::Row, side: &str, times: u64) {
    match side {
        "driver" => remote_lengths::by_face(black_box(&DRIVER), row, times),
        "library" => remote_lengths::by_face(black_box(&LIBRARY), row, times),
        "bare" => remote_lengths::bare(row, times),
        _ => repeat(times, || {
            black_box(row);
        }),
    }
}

#[inline(never)]
fn run_matcher(row: &matcher::Row, side: &str, times: u64) {
    match side {
        "driver" => matcher::by_plain_face(row, times),
        "library" => matcher::by_library(row, times),
        "bare" => matcher::bare(row, times),
        _ => repeat(times, || {
            black_box(row);
        }),
    }
}

#[inline(never)]
fn run_filters(row: &filters::Row, side: &str, times: u64) {
    match side {
        "driver" => filters::by_face(&black_box(&DRIVER).filters, row, times),
        "library" => filters::by_face(&black_box(&LIBRARY).filters, row, times),
        "bare" => filters::bare(row, times),
        _ => repeat(times, || {
            black_box(row);
        }),
    }
}

#[inline(never)]
fn run_frames(row: &Row, side: &str, times: u64) {
    match side {
        "driver" => by_face(black_box(&DRIVER), row, times),
        "library" => by_face(black_box(&LIBRARY), row, times),
        "bare" => bare(row, times),
        _ => repeat(times, || {
            black_box(&row.call);
        }),
    }
}

fn repeat(times: u64, mut work: impl FnMut()) {
    for _ in 0..times {
        work();
    }
}

fn by_face(face: &Face, row: &Row, times: u64) {
    let mut lent = [0; OUT_LENGTH];
    match row.work {
        Work::Build => repeat(times, || build_by_face(face, black_box(&row.call), &mut lent[..FRAME_LENGTH])),
        Work::ReadIdentifier => {
            let frame = probe::bytes(&frame_of(&row.call)).to_owned();
            repeat(times, || {
                let frame = black_box(&frame);
                black_box(unsafe { (face.identifier)(frame.as_ptr(), frame.len()) });
            })
        }
        Work::ReadData => {
            let frame = probe::bytes(&frame_of(&row.call)).to_owned();
            repeat(times, || {
                let frame = black_box(&frame);
                black_box(unsafe { (face.data)(frame.as_ptr(), frame.len(), lent.as_mut_ptr(), lent.len()) });
            })
        }
    }
}

fn build_by_face(face: &Face, call: &Call, frame: &mut [u8]) {
    let Call { extended, id, remote_request, dlc, data } = *call;
    black_box(unsafe {
        let function = face.new_from_parameters;
        function(extended, id, remote_request, false, dlc, data.as_ptr(), data.len(), frame.as_mut_ptr(), frame.len())
    });
}

fn bare(row: &Row, times: u64) {
    match row.work {
        Work::Build => repeat(times, || build_bare(black_box(&row.call))),
        Work::ReadIdentifier => {
            let frame = frame_of(&row.call);
            repeat(times, || {
                black_box(black_box(&frame).identifier());
            })
        }
        Work::ReadData => {
            let frame = frame_of(&row.call);
            repeat(times, || {
                black_box(black_box(&frame).data());
            })
        }
    }
}

fn build_bare(call: &Call) {
    if let Some(id) = to_id(call.extended, call.id) {
        let _ = black_box(probe::new_from_parameters(id, call.remote_request, false, call.dlc, call.data));
    }
}

fn frame_of(call: &Call) -> EspTwaiFrame {
    let id = to_id(call.extended, call.id).expect("an identifier within its limit");
    probe::new_from_parameters(id, call.remote_request, false, call.dlc, call.data).expect("a sound frame")
}
