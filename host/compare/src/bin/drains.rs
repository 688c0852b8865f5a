//! drains COUNT [changed]: gives the box what at least COUNT drains of the driver come to, with frames that arrive and
//! records that are taken in their midst, and stops at the first difference. `changed`: the driver is a wrong copy on
//! purpose.
use std::process::exit;

use compare::{DIFFERENT, UNUSABLE, grouped, library::BOX};
use oracle::{
    course::{Counts, Course},
    script,
};
use original::source;

fn main() {
    let arguments: Vec<String> = std::env::args().skip(1).collect();
    let least = arguments.first().and_then(|count| count.parse().ok()).unwrap_or_else(|| {
        eprintln!("usage: drains COUNT [changed]");
        exit(UNUSABLE)
    });
    if arguments.get(1).is_none_or(|word| word != "changed")
        && let Err(change) = source::unchanged()
    {
        eprintln!("{change}");
        exit(UNUSABLE)
    }
    let mut total = Counts::default();
    let (mut courses, mut calls) = (0, 0);
    while total.drains < least {
        let course = Course::random(courses).and_then(|course| compare(&course).map(|()| course));
        let course = course.unwrap_or_else(|why| {
            println!("differs: course {courses}: {why}");
            exit(DIFFERENT)
        });
        courses += 1;
        calls += course.calls.len() as u64;
        total.add(&course.counts);
    }
    print(courses, calls, total);
}

fn compare(course: &Course) -> Result<(), String> {
    let replies = script::run(BOX.1, &course.calls)?;
    let differs = |place: &usize| replies[*place] != course.replies[*place];
    let Some(place) = (0..replies.len()).find(differs) else { return Ok(()) };
    let (call, driver, ours) = (course.calls[place], &course.replies[place], &replies[place]);
    Err(format!("call {place}, {call:02x?}\nthe Rust: {driver:02x?}\nours:     {ours:02x?}"))
}

fn print(courses: u64, calls: u64, total: Counts) {
    println!("drains, box: {}", BOX.0);
    let counts = [
        (calls, "calls"),
        (total.notices, "notices"),
        (total.stored, "records stored"),
        (total.lost, "lost"),
        (total.marks, "marks"),
        (total.not_recorded, "arrivals not recorded"),
        (total.arrivals_within, "arrivals while a drain ran"),
        (total.takes_within, "takes while a drain ran"),
        (total.states, "states seen"),
    ];
    let counts = counts.map(|(count, what)| format!("{} {what}", grouped(count))).join(", ");
    println!("compared: {} drains in {} courses: {counts}; 0 differ", grouped(total.drains), grouped(courses));
}
