//! What a frame shows to a filter for its format, in the characters of patterns, by the driver's own readers.
use original::twai::{EspTwaiFrame, Id};

use crate::compiler::Compiler;

/// Stands for each bit of a byte that the frame lacks: nothing is compared there.
pub const MISSING: u8 = b'-';

/// Field by field, as the compiler takes its patterns.
pub fn shown(compiler: Compiler, frame: &EspTwaiFrame) -> Vec<Vec<u8>> {
    let id = match frame.identifier() {
        Id::Standard(id) => format!("{:011b}", id.as_raw()),
        Id::Extended(id) => format!("{:029b}", id.as_raw()),
    };
    let remote = format!("{:b}", u8::from(frame.is_remote_request()));
    let missing = || char::from(MISSING).to_string().repeat(8);
    let byte = |index: usize| frame.data().get(index).map_or_else(missing, |byte| format!("{byte:08b}"));
    let top: String = id.chars().take(16).collect();
    let fields = match compiler {
        Compiler::SingleStandard => vec![id, remote, byte(0), byte(1)],
        Compiler::SingleExtended => vec![id, remote],
        Compiler::DualStandard => vec![id.clone(), remote.clone(), byte(0), id, remote],
        Compiler::DualExtended => vec![top.clone(), top],
    };
    fields.into_iter().map(String::into_bytes).collect()
}

/// Whether, in all fields or in those of either half, each character asked for is `x` or the one shown, if one is.
pub fn fit(compiler: Compiler, asked: &[Vec<u8>], shown: &[Vec<u8>]) -> bool {
    let fits = |(asked, shown): (&u8, &u8)| *asked == b'x' || *shown == MISSING || asked == shown;
    let field_fits = |(asked, shown): (&Vec<u8>, &Vec<u8>)| asked.iter().zip(shown).all(fits);
    let mut halves = compiler.halves().into_iter();
    halves.any(|half| asked[half.clone()].iter().zip(&shown[half]).all(field_fits))
}
