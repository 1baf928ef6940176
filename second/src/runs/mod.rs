//! The command `runs`: random runs through another `trace` and through this model, compared byte for byte.

pub mod cells;
pub mod coverage;
pub mod damage;
mod house;
mod noise;
mod openings;
mod requests;
pub mod script;
mod steered;

use std::fs;
use std::path::Path;

use crate::compare::{self, Outcome};
use crate::random::Random;
use crate::replica::Replica;
use crate::runs::cells::{Cell, Cells};
use crate::runs::coverage::Coverage;
use crate::runs::house::House;
use crate::runs::script::Script;
use crate::seats::largest_f;
use crate::tally::grouped;
use crate::trace::trace;
use crate::values;

/// Short runs about H lines, made before the long ones.
const OPENINGS: usize = 400;

/// About how many events a long run has.
const LONG: u64 = 2_600;

/// Makes runs until they have this many events; false where a difference or an empty cell was found.
pub fn run(program: &str, seed: u64, events: u64) -> Result<bool, String> {
    let path = compare::temporary("run.in");
    let done = run_all(program, seed, events, &path);
    let _ = fs::remove_file(&path);
    done
}

fn run_all(program: &str, seed: u64, events: u64, path: &Path) -> Result<bool, String> {
    let mut cells = Cells::default();
    let (mut done, mut number) = (0, 0);
    while done < events || number < OPENINGS {
        let input = make(seed, number, &mut cells);
        fs::write(path, &input).map_err(|error| format!("{}: {error}", path.display()))?;
        let mut expected = Vec::new();
        done += trace(&input[..], &mut expected, &mut Coverage::new(&mut cells)).map_err(|error| error.to_string())?;
        let got = compare::output_of(program, &[], path)?;
        let what = format!("run {number} of seed {seed}, after {} events", grouped(done));
        if compare::report(&what, &input, &expected, &got)? == Outcome::Different {
            return Ok(false);
        }
        number += 1;
    }
    cells.print();
    let empty = cells.empty();
    if !empty.is_empty() {
        println!("runs: {} of {} cells stayed empty: {}", empty.len(), cells.total(), empty.join("; "));
        return Ok(false);
    }
    println!("runs: {} events in {number} runs, {} cells covered, 0 differences", grouped(done), cells.total());
    Ok(true)
}

/// The input of one run; seed and number fix it.
fn make(seed: u64, number: usize, cells: &mut Cells) -> Vec<u8> {
    let mut random = Random::new(seed, number as u64);
    match number.checked_sub(OPENINGS) {
        None => openings::make(&mut random, number),
        Some(long) => make_long(random, long, cells),
    }
}

/// First a house, then chapters steered by the seat's state, then an end that may be cut off.
fn make_long(mut random: Random, number: usize, cells: &mut Cells) -> Vec<u8> {
    let (n, f) = size(&mut random, number);
    let seat = if random.chance(15) { 1 } else { random.below(u64::from(n)) as u8 };
    let own = values::entry(&mut random);
    let replica = Replica { n, f, seat, own, view: 1, ..Replica::BLANK };
    cells.add_if(n == 4, Cell::SmallestHouse);
    cells.add_if(n == 64, Cell::LargestHouse);
    cells.add_if(f < largest_f(n), Cell::FewerFaults);
    let dash = f == 1 && random.chance(50);
    let mut script = Script::new(random, replica, dash, cells);
    let events = if number % 100 == 10 { 8 * LONG } else { script.random.between(LONG / 2, LONG * 3 / 2) } as usize;
    match script.random.below(10) {
        _ if n == 64 => steered::all_alike(&mut script),
        0 => steered::all_alike(&mut script),
        1 => steered::all_twins(&mut script),
        _ => {}
    }
    for _ in 0..script.random.pick(&[0, 0, 5, 20]) {
        noise::any_message(&mut script);
    }
    House::new(&mut script).play(&mut script, events / 2);
    steered::play(&mut script, events);
    match script.random.below(3) {
        0 => damage::write_last(&mut script),
        1 => requests::end_among_rows(&mut script),
        _ => {}
    }
    script.cells.add_if(script.events() > 10_000, Cell::LongRun);
    script.bytes
}

/// Every other run goes through all n, with the largest f, then 1, then any; the rest are small houses.
fn size(random: &mut Random, number: usize) -> (u8, u8) {
    let turn = number / 2;
    let n = if number % 2 == 0 { 64 - (turn % 61) as u8 } else { random.between(4, 16) as u8 };
    let any = random.between(1, u64::from(largest_f(n))) as u8;
    (n, [largest_f(n), 1, any][turn / 61 % 3])
}
