//! What host/c/ten.c does, in Rust.
use chherbolat::{Filter, Format, Frame, Refused, StandardId};

fn main() -> Result<(), Refused> {
    let ours = Filter::from_list(Format::Standard, &[0x100, 0x104])?;
    let frame = Frame::new(StandardId::new(0x104)?, &[0x2A])?; // 0x800 would be refusal 1
    let wakes = if ours.filter.accepts(&frame) { "wakes us" } else { "passes by" };
    println!("{}: a frame from 0x104 {wakes}", ours.pattern());
    Ok(())
}
