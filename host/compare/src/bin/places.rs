//! places CALLS [model]: makes at least CALLS calls on fresh boxes, in any order, and checks what becomes of each
//! arrival. `model`: on the host's model, which may be a wrong copy on purpose.
use std::process::exit;

use compare::{
    DIFFERENT, UNUSABLE, grouped,
    library::{BOX, MODEL},
};
use oracle::{
    places::{self, Counts},
    script,
};

/// How many calls a sequence has before the box is emptied, in turn.
const LENGTHS: [u64; 4] = [200, 2_000, 10_000, 30_000];

fn main() {
    let arguments: Vec<String> = std::env::args().skip(1).collect();
    let least = arguments.first().and_then(|count| count.parse().ok()).unwrap_or_else(|| {
        eprintln!("usage: places CALLS [model]");
        exit(UNUSABLE)
    });
    let (name, function) = if arguments.get(1).is_some_and(|word| word == "model") { MODEL } else { BOX };
    let (mut total, mut sequences) = (Counts::default(), 0);
    while total.calls < least {
        let calls = places::random_calls(LENGTHS[sequences as usize % LENGTHS.len()], sequences);
        let counts = script::run(function, &calls).and_then(|replies| places::check(&calls, &replies));
        total.add(&counts.unwrap_or_else(|why| {
            println!("differs: sequence {sequences}: {why}");
            exit(DIFFERENT)
        }));
        sequences += 1;
    }
    println!("places, box: {name}");
    print(sequences, total);
}

fn print(sequences: u64, total: Counts) {
    let counts = [
        (total.drains, "drains"),
        (total.recorded, "arrivals recorded"),
        (total.not_recorded, "not recorded"),
        (total.notices, "notices"),
        (total.taken, "records taken"),
        (total.lost, "lost"),
        (total.refused_start, "starts refused by 8"),
        (total.refused_step, "steps refused by 9"),
    ];
    let counts = counts.map(|(count, what)| format!("{} {what}", grouped(count))).join(", ");
    println!("checked: {} calls in {} sequences: {counts}; 0 wrong", grouped(total.calls), grouped(sequences));
}
