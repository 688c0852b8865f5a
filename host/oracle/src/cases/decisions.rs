//! The cases of the decisions.
use crate::{
    case::{Case, Decision},
    random::Random,
};

/// The status bits that the outline names.
const NAMED_BITS: [u32; 5] = [0, 2, 6, 7, 8];
/// How many questions a status word is good for.
const QUESTIONS: u64 = 7;

/// Visits every case that is compared and is not in the sample: every question of as many random words as make `count`.
pub fn all(count: u64, visit: &mut impl FnMut(Case)) {
    let random = &mut Random::from_seed(12);
    for _ in 0..count.div_ceil(QUESTIONS) {
        every_question(random.word() as u32, visit);
    }
}

pub fn sample(visit: &mut impl FnMut(Case)) {
    let random = &mut Random::from_seed(13);
    for choice in 0..1 << NAMED_BITS.len() {
        every_question(named(choice), visit);
    }
    for choice in 0..8 {
        every_question(named(choice * 4) | random.word() as u32 & !named(0b11111), visit);
    }
}

/// The word with the named bits that the choice has.
fn named(choice: u32) -> u32 {
    NAMED_BITS.iter().enumerate().map(|(place, bit)| (choice >> place & 1) << bit).sum()
}

fn every_question(status: u32, visit: &mut impl FnMut(Case)) {
    for error_passive in [false, true] {
        visit(Case::Decide(Decision::Transmit { status, error_passive }));
        for in_flight in [false, true] {
            visit(Case::Decide(Decision::Poll { status, error_passive, in_flight }));
        }
    }
    visit(Case::Decide(Decision::Receive { status }));
}
