//! compare COUNT [changed]: gives the driver and the library the same cases, COUNT random ones of each kind among
//! them, and stops at the first difference. `changed`: the driver, or the model of the matcher that it lacks, is a wrong
//! copy on purpose.
use std::{collections::BTreeMap, hint::black_box, process::exit};

use compare::{DIFFERENT, UNUSABLE, grouped, library::LIBRARY};
use oracle::{
    answer::Answer,
    case::{Build, Case, Constructor, Decision, FileCall, Match},
    cases::{self, OUT_LENGTH},
    compiler::Compiler,
    driver::{DRIVER, filters::silence_refusals},
    face::{FRAME_LENGTH, filters::REGISTERS_LENGTH},
    outcome::Outcome,
};
use original::source;

fn main() {
    let arguments: Vec<String> = std::env::args().skip(1).collect();
    let count = arguments.first().and_then(|count| count.parse().ok()).unwrap_or_else(|| {
        eprintln!("usage: compare COUNT [changed]");
        exit(UNUSABLE)
    });
    if arguments.get(1).is_none_or(|word| word != "changed") {
        check_source();
    }
    silence_refusals();
    let mut tally = Tally::default();
    cases::all(count, &[&DRIVER.filters, &LIBRARY.filters], &mut |case| tally.compare(case));
    tally.print();
}

fn check_source() {
    match source::unchanged() {
        Ok(lines) => println!("{lines}"),
        Err(change) => {
            eprintln!("{change}");
            exit(UNUSABLE)
        }
    }
}

/// How many cases of each kind, and how many frames and filters by the number of the answer; and how many frames were
/// built the same in both ways; and how many frames were matched by each row of positions, and accepted; and how many
/// decisions by answer and command; and how many files by what was done with them and the number of the answer.
#[derive(Default)]
struct Tally {
    kinds: BTreeMap<&'static str, u64>,
    built: BTreeMap<u32, u64>,
    built_in_both_ways: u64,
    compiled: BTreeMap<u32, u64>,
    refused_matches: BTreeMap<u32, u64>,
    matched: [u64; Compiler::ALL.len()],
    accepted: [u64; Compiler::ALL.len()],
    decided: BTreeMap<(&'static str, u64), u64>,
    filed: BTreeMap<(&'static str, u32), u64>,
}

impl Tally {
    fn compare(&mut self, mut case: Case) {
        let before = case.clone();
        let (driver, library) = (Outcome::of(&DRIVER, &case), Outcome::of(&LIBRARY, &case));
        if driver != library {
            stop(&before, &format!("the Rust: {driver:02x?}\nours:     {library:02x?}"));
        }
        if let Some(verdict) = by_characters(&case)
            && library != Outcome::Matched(Answer::gives(u64::from(verdict)))
        {
            stop(&before, &format!("by the characters: {verdict}\nours: {library:02x?}"));
        }
        if let Case::Build(build) = &case {
            self.built_in_both_ways += u64::from(is_built_in_both_ways(build, &library));
        }
        if !library.refusals_write_nothing() {
            stop(&before, &format!("a refusal wrote: {library:02x?}"));
        }
        if *black_box(&mut case) != before {
            stop(&before, "what was lent for reading was changed");
        }
        *self.kinds.entry(kind(&case)).or_default() += 1;
        match library {
            Outcome::Matched(answer) => self.count_match(&case, answer),
            Outcome::Built(lending) => *self.built.entry(lending.answer.number).or_default() += 1,
            Outcome::Compiled(lending) => *self.compiled.entry(lending.answer.number).or_default() += 1,
            Outcome::Decided(answer) => self.count_decision(&case, answer),
            Outcome::Filed(lending) => *self.filed.entry((kind(&case), lending.answer.number)).or_default() += 1,
            Outcome::Number(_) | Outcome::Read(_) => {}
        }
    }

    fn count_match(&mut self, case: &Case, answer: Answer) {
        match case {
            Case::Match(Match { kind, frame, .. }) if !answer.is_refusal() => {
                let row = Compiler::of(*kind == 1, frame[0] >= 0x80) as usize;
                self.matched[row] += 1;
                self.accepted[row] += answer.value;
            }
            _ => *self.refused_matches.entry(answer.number).or_default() += 1,
        }
    }

    fn count_decision(&mut self, case: &Case, answer: Answer) {
        *self.decided.entry((kind(case), answer.value % 0x1_0000)).or_default() += 1;
    }

    fn decisions(&self) -> String {
        let count = |((kind, value), count): (&(&str, u64), &u64)| {
            format!("{kind} {}/{}: {}", value % 256, value / 256, grouped(*count))
        };
        self.decided.iter().map(count).collect::<Vec<_>>().join(", ")
    }

    fn files(&self) -> String {
        let count = |((kind, number), count): (&(&str, u32), &u64)| format!("{kind} {number}: {}", grouped(*count));
        self.filed.iter().map(count).collect::<Vec<_>>().join(", ")
    }

    fn by_row(&self) -> String {
        let rows = ["single standard", "single extended", "dual standard", "dual extended"].iter().enumerate();
        let counts = |row: usize| (grouped(self.accepted[row]), grouped(self.matched[row]));
        let rows = rows.map(|(row, name)| (name, counts(row)));
        rows.map(|(name, (accepted, all))| format!("{name} {accepted} of {all}")).collect::<Vec<_>>().join(", ")
    }

    fn print(&self) {
        let kinds: Vec<String> = self.kinds.iter().map(|(kind, count)| format!("{} {kind}", grouped(*count))).collect();
        println!("answers to building, by number: {}", by_number(&self.built));
        println!("frames that the old way builds, the same in the new way: {}", grouped(self.built_in_both_ways));
        println!("answers to compiling filters, by number: {}", by_number(&self.compiled));
        println!("frames accepted, by row of positions: {}", self.by_row());
        println!("matching refused, by number: {}", by_number(&self.refused_matches));
        println!("decisions, by answer/command: {}", self.decisions());
        println!("answers about files, by number: {}", self.files());
        let cases = grouped(self.kinds.values().sum());
        println!("compared: {cases} cases: {}; 0 differ", kinds.join(", "));
    }
}

/// Whether this is a frame that the old way of building accepts; then the new one has to answer the same.
fn is_built_in_both_ways(build: &Build, library: &Outcome) -> bool {
    let Outcome::Built(lending) = library else { return false };
    let Some(asked) = build.with_remote_length().filter(|_| !lending.answer.is_refusal()) else { return false };
    let asked = Case::Build(asked);
    let new = Outcome::of(&LIBRARY, &asked);
    if new != *library {
        stop(&asked, &format!("the old way: {library:02x?}\nthe new way: {new:02x?}"));
    }
    true
}

fn by_characters(case: &Case) -> Option<bool> {
    match case {
        Case::Match(case) => case.by_characters,
        _ => None,
    }
}

fn by_number(counts: &BTreeMap<u32, u64>) -> String {
    let counts: Vec<String> = counts.iter().map(|(number, count)| format!("{number}: {}", grouped(*count))).collect();
    counts.join(", ")
}

fn stop(case: &Case, why: &str) -> ! {
    println!("differs: {case:02x?}\n{why}");
    exit(DIFFERENT)
}

fn kind(case: &Case) -> &'static str {
    match case {
        Case::StandardId(_) | Case::ExtendedId(_) | Case::BaseId(_) => "identifiers made or refused",
        Case::Build(Build { constructor: Constructor::NewWithRemoteLength { .. }, room: FRAME_LENGTH, .. }) => {
            "frames built or refused with a remote length"
        }
        Case::Build(build) if build.room == FRAME_LENGTH => "frames built or refused",
        Case::Read(read) if read.frame.len() == FRAME_LENGTH && read.room == OUT_LENGTH => {
            "frames read by nine readers"
        }
        Case::Patterns(case) if case.room == REGISTERS_LENGTH => "filters by patterns",
        Case::CodeMask(case) if case.room == REGISTERS_LENGTH => "filters by code and mask",
        Case::Match(Match { by_characters: Some(_), .. }) => "frames matched, and by their characters",
        Case::Match(case) if case.registers.len() == REGISTERS_LENGTH && case.frame.len() == FRAME_LENGTH => {
            "frames matched or refused"
        }
        Case::Decide(Decision::Transmit { .. }) => "transmits",
        Case::Decide(Decision::Poll { .. }) => "polls",
        Case::Decide(Decision::Receive { .. }) => "receives",
        Case::File(FileCall::Read { .. }) => "files read",
        Case::File(FileCall::Write { .. }) => "files written",
        Case::File(FileCall::Report { .. }) => "files reported on",
        Case::Build(_) | Case::Read(_) | Case::Patterns(_) | Case::CodeMask(_) | Case::Match(_) => {
            "lent slices of other lengths"
        }
    }
}
