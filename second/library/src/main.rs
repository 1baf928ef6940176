//! The first program's library, asked through its header for C what no trace can ask, and compared with the model:
//! events on replicas built by hand, the selection by itself, the writer, and setup. It is built with the folder of
//! `libstation.a` in STATION_DIR.

mod arrays;
mod asked;
mod cells;
mod coverage;
mod events;
mod ffi;
mod fitting;
mod model;
mod selection;
mod serials;
mod setup;
mod wilder;
mod writer;

use std::process::ExitCode;

use second::options::Options;
use second::random::Random;
use second::tally::grouped;
use second::SEED;

use crate::asked::Asked;
use crate::cells::Cells;

const USAGE: &str = "usage: library [--seed N] [--count N]";

/// Rounds of questions where no number is given.
const COUNT: u64 = 150_000;

type Fixed = fn(&mut Asked) -> Result<(), String>;

/// The questions that are written down.
const FIXED: [Fixed; 2] = [setup::check, serials::check];

type Check = fn(&mut Random, &mut Asked) -> Result<(), String>;

/// The sorts of random questions, and how many rounds make one of each; a message is written into buffers of every
/// length at once.
const SORTS: [(Check, u64); 3] = [(events::check, 1), (selection::check, 1), (writer::check, 20)];

fn main() -> ExitCode {
    match command() {
        Ok(true) => ExitCode::SUCCESS,
        Ok(false) => ExitCode::from(1),
        Err(error) => {
            eprintln!("library: {error}\n{USAGE}");
            ExitCode::from(2)
        }
    }
}

fn command() -> Result<bool, String> {
    let options = Options::new(std::env::args().skip(1), &["--seed", "--count"])?;
    options.plain([])?;
    Ok(run(options.number("--seed", SEED)?, options.number("--count", COUNT)?))
}

/// Asks all questions; false where an answer is another than the model's, or a cell stayed empty.
fn run(seed: u64, count: u64) -> bool {
    let mut asked = Asked { cells: Cells::default(), calls: 0 };
    let mut differing = 0;
    for check in FIXED {
        if let Err(difference) = check(&mut asked) {
            println!("library: DIFFERENCE in {difference}");
            differing += 1;
        }
    }
    for (place, (check, rounds)) in (0..).zip(SORTS) {
        let seed = seed.wrapping_add(place);
        if let Some(difference) = first_difference(check, seed, count.div_ceil(rounds), &mut asked) {
            println!("library: DIFFERENCE in {difference}");
            differing += 1;
        }
    }
    finish(&asked, seed, differing)
}

/// Asks one sort of question until an answer differs; seed and round fix the question.
fn first_difference(check: Check, seed: u64, count: u64, asked: &mut Asked) -> Option<String> {
    (0..count).find_map(|round| {
        let difference = check(&mut Random::new(seed, round), asked).err()?;
        Some(format!("round {round}: {difference}"))
    })
}

fn finish(asked: &Asked, seed: u64, differing: usize) -> bool {
    let calls = grouped(asked.calls);
    if differing > 0 {
        println!(
            "library: {calls} calls, seed {seed}, differences in {differing} of {} sorts of questions",
            FIXED.len() + SORTS.len()
        );
        return false;
    }
    asked.cells.print();
    let (empty, total) = (asked.cells.empty(), asked.cells.total());
    if !empty.is_empty() {
        println!("library: {} of {total} cells stayed empty: {}", empty.len(), empty.join("; "));
        return false;
    }
    println!("library: {calls} calls, {total} cells covered, 0 differences");
    true
}
