//! The matcher, by words: a frame is laid out once as a filter sees it, and a filter compares at once.

/// What a frame shows to a single and to a dual filter, each with the positions that the frame's format names; those of
/// the payload only for bytes that the frame has.
#[derive(Clone, Copy)]
pub struct View {
    single: u32,
    single_named: u32,
    dual: u32,
    first_named: u32,
    second_named: u32,
}

/// A single or dual filter.
#[derive(Clone, Copy)]
pub struct Filter {
    dual: bool,
    code: u32,
    compared: u32,
}

impl View {
    #[inline]
    pub fn of(frame: &[u8; 13]) -> Self {
        let remote = u32::from(frame[0] >> 6 & 1);
        if frame[0] & 0x80 != 0 {
            Self::of_extended(u32::from_be_bytes([frame[1], frame[2], frame[3], frame[4]]), remote)
        } else {
            let length = if remote == 1 { 0 } else { frame[0] & 0x0F };
            Self::of_standard(u16::from_be_bytes([frame[1], frame[2]]), remote, length, [frame[3], frame[4]])
        }
    }

    fn of_standard(id_at_top: u16, remote: u32, length: u8, payload: [u8; 2]) -> Self {
        let half = u32::from(id_at_top & 0xFFE0) | remote << 4;
        let byte = u32::from(payload[0]);
        let (single_named, first_named) = match length {
            0 => (0xFFF0_0000, 0xFFF0_0000),
            1 => (0xFFF0_FF00, 0xFFFF_000F),
            _ => (0xFFF0_FFFF, 0xFFFF_000F),
        };
        View {
            single: half << 16 | u32::from(u16::from_be_bytes(payload)),
            single_named,
            dual: half << 16 | half | (byte & 0xF0) << 12 | byte & 0x0F,
            first_named,
            second_named: 0x0000_FFF0,
        }
    }

    fn of_extended(id_at_top: u32, remote: u32) -> Self {
        let top = id_at_top >> 16;
        View {
            single: id_at_top & !7 | remote << 2,
            single_named: 0xFFFF_FFFC,
            dual: top << 16 | top,
            first_named: 0xFFFF_0000,
            second_named: 0x0000_FFFF,
        }
    }
}

impl Filter {
    #[inline]
    pub fn new(dual: bool, registers: &[u8; 8]) -> Self {
        let [a, b, c, d, e, f, g, h] = *registers;
        let (code, mask) = (u32::from_be_bytes([a, b, c, d]), u32::from_be_bytes([e, f, g, h]));
        Filter { dual, code, compared: !mask }
    }

    #[inline]
    pub fn accepts(&self, view: &View) -> bool {
        if self.dual {
            let differing = (self.code ^ view.dual) & self.compared;
            differing & view.first_named == 0 || differing & view.second_named == 0
        } else {
            (self.code ^ view.single) & self.compared & view.single_named == 0
        }
    }
}
