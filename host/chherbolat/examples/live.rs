//! What host/c/live.c does, in Rust: a box that lives between calls.
use chherbolat::{
    Frame, ReceiveBox, Refused, StandardId,
    receive_box::{Record, Told, Words},
};

fn main() -> Result<(), Refused> {
    let mut receive_box = ReceiveBox::new();
    receive_box.arrive(&Frame::new(StandardId::new(0x124)?, &[0xAB])?)?;
    receive_box.start(Words { interrupt: 1, enable: 0xFF, status: 1 })?;
    while !matches!(receive_box.step()?.told, Told::Finished { .. }) {}
    if let Some(Record::Frame(frame)) = receive_box.take()? {
        println!("taken: a frame from {:#X}", frame.identifier().as_raw());
    }
    Ok(())
}
