//! Lists of identifiers, and what any function that makes a filter of a list must come to: judged by the words of the
//! request, identifier by identifier, and by nothing of how a filter is made.
use std::slice;

use plain::{
    list,
    matcher::{Filter, View},
};

use crate::{
    answer::{Answer, IDENTIFIER_TOO_LARGE, OUTPUT_TOO_SHORT, WRONG_SLICE_LENGTH},
    face::filters::REGISTERS_LENGTH,
    random::Random,
};

pub const EMPTY_LIST: u32 = 15;

/// Format, list, pattern and registers.
pub type FromList = unsafe extern "C" fn(bool, *const u32, usize, *mut u8, usize, *mut u8, usize) -> Answer;

/// What every lent byte holds before a call, and how many are lent in all.
const FILL: u8 = 0xA5;
const LENT_LENGTH: usize = 64;

#[derive(Debug, Clone)]
pub struct Case {
    pub extended: bool,
    pub list: Vec<u32>,
    /// The lengths of the slices that are lent.
    pub pattern_room: usize,
    pub registers_room: usize,
}

#[derive(Default)]
pub struct Counts {
    pub accepted: u64,
    pub refused: u64,
    pub identifiers_tried: u64,
    pub patterns_tried: u64,
}

impl Counts {
    pub fn add(&mut self, more: &Counts) {
        self.accepted += more.accepted;
        self.refused += more.refused;
        self.identifiers_tried += more.identifiers_tried;
        self.patterns_tried += more.patterns_tried;
    }
}

fn width(extended: bool) -> usize {
    if extended { 29 } else { 11 }
}

fn limit(extended: bool) -> u32 {
    if extended { 0x1FFF_FFFF } else { 0x7FF }
}

impl Case {
    /// Entries that share most bits, or few; one case in ten has an entry too large, and few have slices too short.
    pub fn random(random: &mut Random) -> Self {
        let extended = random.one_in(2);
        let length = [0, 1, 2, random.below(5), random.below(12), random.below(300)][random.below(6) as usize];
        let (base, mut free) = (random.word() as u32, u32::MAX);
        for _ in 0..random.below(5) {
            free &= random.word() as u32;
        }
        let entry = |random: &mut Random| (base ^ random.word() as u32 & free) & limit(extended);
        let mut list: Vec<u32> = (0..length).map(|_| entry(random)).collect();
        if random.one_in(10) {
            spoil(&mut list, extended, random);
        }
        let near = width(extended) as u64 - 1 + random.below(3);
        let pattern_room = [LENT_LENGTH as u64, near, random.below(LENT_LENGTH as u64)][random.below(3) as usize];
        let registers_room = if random.one_in(20) { random.below(12) as usize } else { REGISTERS_LENGTH };
        Case { extended, list, pattern_room: pattern_room as usize, registers_room }
    }

    fn refusal(&self) -> Option<Answer> {
        if self.registers_room != REGISTERS_LENGTH {
            return Some(Answer::refuses(WRONG_SLICE_LENGTH, 3));
        }
        if self.list.is_empty() {
            return Some(Answer::refuses(EMPTY_LIST, 0));
        }
        if let Some(index) = (0..self.list.len()).find(|index| self.list[*index] > limit(self.extended)) {
            return Some(Answer::refuses(IDENTIFIER_TOO_LARGE, index as u64));
        }
        let needed = width(self.extended);
        (self.pattern_room < needed).then(|| Answer::refuses(OUTPUT_TOO_SHORT, needed as u64))
    }

    /// What the request says of each position, from the highest on.
    fn pattern(&self) -> Vec<u8> {
        let character = |position: usize| {
            let ones = self.list.iter().filter(|entry| *entry >> position & 1 == 1).count();
            if ones == 0 {
                b'0'
            } else if ones == self.list.len() {
                b'1'
            } else {
                b'x'
            }
        };
        (0..width(self.extended)).rev().map(character).collect()
    }
}

fn spoil(list: &mut [u32], extended: bool, random: &mut Random) {
    for _ in 0..random.below(4) {
        if let Some(place) = random.word().checked_rem(list.len() as u64) {
            let above = [limit(extended) + 1, u32::MAX, random.word() as u32][random.below(3) as usize];
            list[place as usize] = above;
        }
    }
}

/// Each standard identifier as a filter sees it, with some RTR and payload.
pub struct Views(Vec<View>);

impl Views {
    pub fn random(random: &mut Random) -> Self {
        Views((0..=limit(false)).map(|id| View::of(&frame(false, id, random))).collect())
    }
}

/// A frame with this identifier and some RTR, length and payload.
fn frame(extended: bool, id: u32, random: &mut Random) -> [u8; 13] {
    let mut frame = [0; 13];
    frame.copy_from_slice(&random.bytes(13));
    frame[0] = u8::from(extended) << 7 | random.word() as u8 & 0x4F;
    let at_top = (id << (32 - width(extended))).to_be_bytes();
    if extended {
        frame[1..5].copy_from_slice(&at_top);
    } else {
        frame[1..3].copy_from_slice(&at_top[..2]);
    }
    frame
}

/// Calls the function, and says what is wrong with what it answers and writes.
pub fn check(
    function: FromList,
    case: &Case,
    views: &Views,
    all_patterns: bool,
    random: &mut Random,
) -> Result<Counts, String> {
    let (mut pattern, mut registers) = ([FILL; LENT_LENGTH], [FILL; LENT_LENGTH]);
    let answer = unsafe {
        let Case { extended, ref list, pattern_room, registers_room } = *case;
        function(
            extended,
            list.as_ptr(),
            list.len(),
            pattern.as_mut_ptr(),
            pattern_room,
            registers.as_mut_ptr(),
            registers_room,
        )
    };
    if let Some(refusal) = case.refusal() {
        same("the answer", &answer, &refusal)?;
        same("the pattern's slice", &pattern, &[FILL; LENT_LENGTH])?;
        same("the registers' slice", &registers, &[FILL; LENT_LENGTH])?;
        return Ok(Counts { refused: 1, ..Counts::default() });
    }
    same("the number", &answer.number, &0)?;
    let (front, rest) = pattern.split_at(width(case.extended));
    same("the pattern", front, &case.pattern()[..])?;
    same("what stands past the pattern", rest, &[FILL; LENT_LENGTH][..rest.len()])?;
    same("what stands past the registers", &registers[8..], &[FILL; LENT_LENGTH][8..])?;
    let filter = Filter::new(false, registers.first_chunk().expect("eight registers"));
    let identifiers_tried = match case.extended {
        false => try_all(&filter, front, answer.value, views)?,
        true => try_some(&filter, front, answer.value, case, random)?,
    };
    let patterns_tried =
        if all_patterns && !case.extended { try_patterns(&case.list, front, answer.value)? } else { 0 };
    Ok(Counts { accepted: 1, refused: 0, identifiers_tried, patterns_tried })
}

fn same<T: std::fmt::Debug + PartialEq + ?Sized>(what: &str, got: &T, due: &T) -> Result<(), String> {
    right(got == due, || format!("{what} is {got:x?}, and should be {due:x?}"))
}

fn right(holds: bool, wrong: impl FnOnce() -> String) -> Result<(), String> {
    if holds { Ok(()) } else { Err(wrong()) }
}

fn fits(pattern: &[u8], id: u32) -> bool {
    let bit = |place: usize| b'0' + (id >> (pattern.len() - 1 - place) & 1) as u8;
    pattern.iter().enumerate().all(|(place, character)| *character == b'x' || *character == bit(place))
}

/// Every standard identifier is accepted exactly if the pattern fits it, and the answer is how many are.
fn try_all(filter: &Filter, pattern: &[u8], answered: u64, Views(views): &Views) -> Result<u64, String> {
    let mut through = 0;
    for (id, view) in (0..).zip(views) {
        let accepts = filter.accepts(view);
        right(accepts == fits(pattern, id), || format!("{id:#x} is accepted: {accepts}"))?;
        through += u64::from(accepts);
    }
    same("how many get through", &answered, &through)?;
    Ok(views.len() as u64)
}

/// Listed ones, these with one bit changed, and any, each accepted exactly if the pattern fits it; and the answer is
/// doubled for each free position.
fn try_some(filter: &Filter, pattern: &[u8], answered: u64, case: &Case, random: &mut Random) -> Result<u64, String> {
    let mut tried = 0;
    for listed in case.list.iter().take(8) {
        let changed = listed ^ 1 << random.below(29);
        for id in [*listed, changed, random.word() as u32 & limit(true)] {
            let accepts = filter.accepts(&View::of(&frame(true, id, random)));
            right(accepts == fits(pattern, id), || format!("{id:#x} is accepted: {accepts}"))?;
            tried += 1;
        }
    }
    let doubled = pattern.iter().filter(|character| **character == b'x').fold(1, |through, _| 2 * through);
    same("how many get through", &answered, &doubled)?;
    Ok(tried)
}

/// Of all patterns of 11 characters, each that accepts the list accepts all that this one does; and none accepts fewer.
fn try_patterns(list: &[u32], pattern: &[u8], answered: u64) -> Result<u64, String> {
    let mut least = u64::MAX;
    let patterns = 3u32.pow(11);
    for number in 0..patterns {
        let other: [u8; 11] = std::array::from_fn(|place| b"01x"[(number / 3u32.pow(place as u32) % 3) as usize]);
        if !list.iter().all(|id| fits(&other, *id)) {
            continue;
        }
        let through = 1 << other.iter().filter(|character| **character == b'x').count();
        least = least.min(through);
        let wider = other.iter().zip(pattern).all(|(wide, narrow)| *wide == b'x' || wide == narrow);
        right(wider, || format!("{} accepts the list, and less", String::from_utf8_lossy(&other)))?;
    }
    same("the least that get through", &answered, &least)?;
    Ok(u64::from(patterns))
}

/// The host's model behind the same face.
///
/// # Safety
/// Each pointer and the length behind it are a slice.
pub unsafe extern "C" fn model(
    extended: bool,
    list: *const u32,
    list_length: usize,
    pattern: *mut u8,
    pattern_length: usize,
    registers: *mut u8,
    registers_length: usize,
) -> Answer {
    let (list, pattern, registers) = unsafe {
        (
            slice::from_raw_parts(list, list_length),
            slice::from_raw_parts_mut(pattern, pattern_length),
            slice::from_raw_parts_mut(registers, registers_length),
        )
    };
    let Ok(registers) = registers.try_into() else { return Answer::refuses(WRONG_SLICE_LENGTH, 3) };
    match list::from_list(extended, list, pattern, registers) {
        Ok(through) => Answer::gives(through),
        Err((number, carries)) => Answer::refuses(number, carries),
    }
}
