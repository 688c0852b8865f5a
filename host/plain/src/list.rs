//! A filter from a list, in one pass over it.

/// Into the front of `pattern`, and the registers; how many identifiers get through. Else the refusal's number and what it
/// carries, and neither is written.
#[inline]
pub fn from_list(extended: bool, list: &[u32], pattern: &mut [u8], registers: &mut [u8; 8]) -> Result<u64, (u32, u64)> {
    let (width, limit) = if extended { (29, 0x1FFF_FFFF) } else { (11, 0x7FF) };
    let Some(&first) = list.first() else { return Err((15, 0)) };
    let mut differing = 0;
    for (index, &entry) in list.iter().enumerate() {
        if entry > limit {
            return Err((1, index as u64));
        }
        differing |= first ^ entry;
    }
    let Some(front) = pattern.get_mut(..width) else { return Err((6, width as u64)) };
    for (place, character) in front.iter_mut().rev().enumerate() {
        *character = if differing >> place & 1 == 1 { b'x' } else { b'0' + (first >> place & 1) as u8 };
    }
    let unused = 32 - width;
    let (code, mask) = ((first & !differing) << unused, differing << unused | ((1 << unused) - 1));
    registers[..4].copy_from_slice(&code.to_be_bytes());
    registers[4..].copy_from_slice(&mask.to_be_bytes());
    Ok(1 << differing.count_ones())
}
