//! Answers as lines of text: a letter, then columns of lower-case hexadecimal digits.
use crate::{
    answer::Answer,
    case::{Build, Case, CodeMask, Constructor, Decision, Match, Patterns, Read},
    compiler::Compiler,
    face::{FRAME_LENGTH, filters::REGISTERS_LENGTH},
    outcome::{Lending, Outcome, Readings},
};

/// What the lines mean, as the comment that stands before them.
pub const LEGEND: &str = "\
# Answers of the Rust driver (esp-hal 1.2.2, src/twai/mod.rs and filter.rs), unchanged, in the form of docs/ABI.md.
# Made by host/answers.
# A line is a letter and columns of hexadecimal digits, two a byte, high byte first; in brackets: a column's bytes.
# An answer is two columns, NUMBER (1) and VALUE (8). FRAME or REGISTERS after an answer is the lent buffer after
# the call; before it, each of its bytes was a5. An empty column leaves two spaces in a row, or nothing at the end of a
# line. KIND is 0 for the filter compiler single standard, 1 single extended, 2 dual standard, 3 dual extended.
# s RAW(2) NUMBER VALUE: standard_id_new
# e RAW(4) NUMBER VALUE: extended_id_new
# t RAW(4) NUMBER VALUE: extended_id_standard_id
# b EXTENDED(1) ID(4) REMOTE(1) SELF(1) DLC(8) LENGTH(2) DATA(LENGTH) NUMBER VALUE FRAME(13): new_from_parameters
# n EXTENDED(1) ID(4) LENGTH(2) DATA(LENGTH) NUMBER VALUE FRAME(13): new
# m EXTENDED(1) ID(4) LENGTH(2) DATA(LENGTH) NUMBER VALUE FRAME(13): new_self_reception
# r FRAME(13) EXTENDED(1) REMOTE(1) SELF(1) CODE(1) LENGTH(1) OFFSET(1) ID(4) USED(1) DATA(LENGTH): all readers
#   of these 13 bytes; USED is how many of them as_slice gives
# p KIND(1), for each pattern LENGTH(1) BYTES(LENGTH), NUMBER VALUE REGISTERS(8): new, of the compiler KIND
# c KIND(1), for each argument its number (bool, u8: 1; u16: 2; u32: 4), NUMBER VALUE REGISTERS(8): new_from_code_mask
# a FILTER(1) REGISTERS(8) FRAME(13) NUMBER VALUE: matcher_accepts, where the registers and the frame are given; FILTER
#   is the kind byte, 0 for single, 1 for dual. The driver has no matcher: these are answers of the model in
#   host/oracle/src/matcher.rs.
# d WHICH(1) STATUS(4) PASSIVE(1) FLIGHT(1) NUMBER VALUE: transmit where WHICH is 0, poll 1, receive 2; PASSIVE is 1
#   where the controller is error-passive, FLIGHT where the frame is in flight before the poll; 0 where not asked for
";

/// The line for a case and what came of it; none for an outcome of another kind than the case, or for what the driver lacks.
pub fn line(case: &Case, outcome: &Outcome) -> Option<String> {
    let columns = match (case, outcome) {
        (Case::StandardId(raw), Outcome::Number(answer)) => number_columns("s", hex(u64::from(*raw), 2), answer),
        (Case::ExtendedId(raw), Outcome::Number(answer)) => number_columns("e", hex(u64::from(*raw), 4), answer),
        (Case::BaseId(raw), Outcome::Number(answer)) => number_columns("t", hex(u64::from(*raw), 4), answer),
        (Case::Build(build), Outcome::Built(lending)) => build_columns(build, lending)?,
        (Case::Read(read), Outcome::Read(readings)) => read_columns(read, readings),
        (Case::Patterns(case), Outcome::Compiled(lending)) => patterns_columns(case, lending),
        (Case::CodeMask(case), Outcome::Compiled(lending)) => code_mask_columns(case, lending),
        (Case::Match(case), Outcome::Matched(answer)) => match_columns(case, answer),
        (Case::Decide(decision), Outcome::Decided(answer)) => decision_columns(*decision, answer),
        _ => return None,
    };
    Some(columns.join(" ").trim_end().to_string())
}

fn number_columns(letter: &str, raw: String, answer: &Answer) -> Vec<String> {
    let [number, value] = answer_columns(answer);
    vec![letter.to_string(), raw, number, value]
}

fn build_columns(build: &Build, lending: &Lending) -> Option<Vec<String>> {
    let letter = match build.constructor {
        Constructor::NewFromParameters { .. } => "b",
        Constructor::NewWithRemoteLength { .. } => return None,
        Constructor::New => "n",
        Constructor::NewSelfReception => "m",
    };
    let mut columns = vec![letter.to_string(), hex(u64::from(build.extended), 1), hex(u64::from(build.id), 4)];
    if let Constructor::NewFromParameters { remote_request, self_reception, dlc } = build.constructor {
        columns.extend([hex(u64::from(remote_request), 1), hex(u64::from(self_reception), 1), hex(dlc as u64, 8)]);
    }
    columns.extend([hex(build.data.len() as u64, 2), hex_of_bytes(&build.data)]);
    columns.extend(answer_columns(&lending.answer));
    columns.push(hex_of_bytes(&lending.lent[..FRAME_LENGTH]));
    Some(columns)
}

fn read_columns(read: &Read, readings: &Readings) -> Vec<String> {
    let length = readings.length.value as usize;
    vec![
        "r".to_string(),
        hex_of_bytes(&read.frame),
        hex(readings.extended.value, 1),
        hex(readings.remote_request.value, 1),
        hex(readings.self_reception.value, 1),
        hex(readings.code.value, 1),
        hex(readings.length.value, 1),
        hex(readings.offset.value, 1),
        hex(readings.identifier.value, 4),
        hex(readings.used.answer.value, 1),
        hex_of_bytes(&readings.data.lent[..length]),
    ]
}

fn patterns_columns(case: &Patterns, lending: &Lending) -> Vec<String> {
    let patterns = case.patterns.iter().flat_map(|pattern| [hex(pattern.len() as u64, 1), hex_of_bytes(pattern)]);
    filter_columns("p", case.compiler, patterns, lending)
}

fn code_mask_columns(case: &CodeMask, lending: &Lending) -> Vec<String> {
    let types = case.compiler.arguments().iter();
    let arguments = case.arguments.iter().zip(types).map(|(number, argument)| hex((*number).into(), argument.width()));
    filter_columns("c", case.compiler, arguments, lending)
}

fn filter_columns(
    letter: &str,
    compiler: Compiler,
    given: impl Iterator<Item = String>,
    lending: &Lending,
) -> Vec<String> {
    let mut columns = vec![letter.to_string(), hex(compiler as u64, 1)];
    columns.extend(given);
    columns.extend(answer_columns(&lending.answer));
    columns.push(hex_of_bytes(&lending.lent[..REGISTERS_LENGTH]));
    columns
}

fn match_columns(case: &Match, answer: &Answer) -> Vec<String> {
    let given = [hex(u64::from(case.kind), 1), hex_of_bytes(&case.registers), hex_of_bytes(&case.frame)];
    ["a".to_string()].into_iter().chain(given).chain(answer_columns(answer)).collect()
}

fn decision_columns(decision: Decision, answer: &Answer) -> Vec<String> {
    let (which, status, error_passive, in_flight) = match decision {
        Decision::Transmit { status, error_passive } => (0, status, error_passive, false),
        Decision::Poll { status, error_passive, in_flight } => (1, status, error_passive, in_flight),
        Decision::Receive { status } => (2, status, false, false),
    };
    let given =
        [hex(which, 1), hex(u64::from(status), 4), hex(u64::from(error_passive), 1), hex(u64::from(in_flight), 1)];
    ["d".to_string()].into_iter().chain(given).chain(answer_columns(answer)).collect()
}

fn answer_columns(answer: &Answer) -> [String; 2] {
    [hex(u64::from(answer.number), 1), hex(answer.value, 8)]
}

fn hex(value: u64, bytes: usize) -> String {
    assert!(bytes == 8 || value >> (8 * bytes) == 0, "{value} is wider than its column");
    format!("{value:0digits$x}", digits = 2 * bytes)
}

fn hex_of_bytes(bytes: &[u8]) -> String {
    bytes.iter().map(|byte| format!("{byte:02x}")).collect()
}
