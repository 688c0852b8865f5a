//! The twin of the program `accept`: reads a frame file on standard input and prints which filters accept which frames,
//! and on standard error why it is refused.
use std::io::{self, Read, Write};

use plain::{file, report::report, words::words};

fn main() -> io::Result<()> {
    let mut given = Vec::new();
    io::stdin().lock().read_to_end(&mut given)?;
    io::stdout().lock().write_all(&report(&given))?;
    if let Err(refusal) = file::read(&given) {
        eprintln!("accept: {}", words(&given, &refusal));
    }
    Ok(())
}
