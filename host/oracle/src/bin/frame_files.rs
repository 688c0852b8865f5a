//! frame_files FOLDER COUNT SEED: writes files at the limits into the folder, and COUNT random ones.
//! frame_files FILTERS FRAMES: prints one good file.
use std::{
    fs,
    io::{self, Write},
    path::Path,
};

use oracle::{frame_files, random::Random};

const ONE_LARGE_IN: u64 = 12;

fn main() -> io::Result<()> {
    let arguments: Vec<String> = std::env::args().skip(1).collect();
    let number = |place: usize| arguments[place].parse::<u64>().expect("a number");
    match arguments.len() {
        3 => write_all(Path::new(&arguments[0]), number(1), number(2)),
        2 => {
            let file = frame_files::good(number(0) as usize, number(1) as usize, &mut Random::from_seed(0));
            io::stdout().write_all(&file)
        }
        _ => panic!("usage: frame_files FOLDER COUNT SEED, or frame_files FILTERS FRAMES"),
    }
}

fn write_all(folder: &Path, count: u64, seed: u64) -> io::Result<()> {
    let random = &mut Random::from_seed(seed);
    let at_limits = frame_files::at_limits(random);
    let files = at_limits.into_iter().chain((0..count).map(|_| frame_files::any(ONE_LARGE_IN, random)));
    files.enumerate().try_for_each(|(index, file)| fs::write(folder.join(format!("{index:06}")), file))
}
