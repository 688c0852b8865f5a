//! Prints the driver's answers to the sample, each once.
use std::{collections::HashSet, process::ExitCode};

use oracle::{
    cases,
    driver::{DRIVER, filters::silence_refusals},
    outcome::Outcome,
    stored,
};
use original::source;

fn main() -> ExitCode {
    if let Err(change) = source::unchanged() {
        eprintln!("{change}");
        return ExitCode::FAILURE;
    }
    silence_refusals();
    print!("{}", stored::LEGEND);
    let mut printed = HashSet::new();
    cases::sample(&mut |case| {
        let line = stored::line(&case, &Outcome::of(&DRIVER, &case)).expect("an outcome of the case's kind");
        if printed.insert(line.clone()) {
            println!("{line}");
        }
    });
    ExitCode::SUCCESS
}
