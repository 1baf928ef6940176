//! The command `bench`: this `trace` and another by turns on the same traces, timed from outside.

use std::fs::{self, File};
use std::io::BufWriter;
use std::path::Path;
use std::process::{Command, Stdio};
use std::time::{Duration, Instant};

use crate::compare::{self, Outcome};
use crate::make;

/// Times both programs; false where their outputs differ, which no timing would make good.
pub fn run(program: &str, lines: u64, turns: u64) -> Result<bool, String> {
    if turns == 0 || lines == 0 {
        return Err("--turns and --lines want 1 or more".to_string());
    }
    let own = std::env::current_exe().map_err(|error| error.to_string())?;
    let own = own.to_str().ok_or("the path of this program is not text")?;
    println!("{lines} lines, {turns} turns; ns per line");
    println!(
        "{:<8}{:>12}{:>12}{:>14}{:>14}{:>9}",
        "trace", "first min", "first med", "second min", "second med", "ratio"
    );
    for kind in make::KINDS {
        let path = compare::temporary(&format!("{kind}.in"));
        let same = write(kind, lines, &path).and_then(|()| measure(kind, program, own, &path, lines, turns));
        let _ = fs::remove_file(&path);
        if !same? {
            return Ok(false);
        }
    }
    Ok(true)
}

fn write(kind: &str, lines: u64, path: &Path) -> Result<(), String> {
    let file = File::create(path).map_err(|error| format!("{}: {error}", path.display()))?;
    make::write(kind, lines, &mut BufWriter::new(file))
}

fn measure(kind: &str, program: &str, own: &str, path: &Path, lines: u64, turns: u64) -> Result<bool, String> {
    let expected = compare::output_of(own, &["trace"], path)?;
    let got = compare::output_of(program, &[], path)?;
    let input = fs::read(path).map_err(|error| error.to_string())?;
    if compare::report(kind, &input, &expected, &got)? == Outcome::Different {
        return Ok(false);
    }
    let (mut firsts, mut seconds) = (Vec::new(), Vec::new());
    for _ in 0..turns {
        firsts.push(time(program, &[], path)?);
        seconds.push(time(own, &["trace"], path)?);
    }
    let per_line = |time: Duration| time.as_nanos() as f64 / lines as f64;
    let [first, first_middle] = least_and_middle(&mut firsts).map(per_line);
    let [second, second_middle] = least_and_middle(&mut seconds).map(per_line);
    let ratio = first / second;
    println!("{kind:<8}{first:>12.1}{first_middle:>12.1}{second:>14.1}{second_middle:>14.1}{ratio:>9.2}");
    Ok(true)
}

/// The wall time of one run, its output thrown away.
fn time(program: &str, arguments: &[&str], path: &Path) -> Result<Duration, String> {
    let input = File::open(path).map_err(|error| format!("{}: {error}", path.display()))?;
    let begin = Instant::now();
    let status = Command::new(program).args(arguments).stdin(input).stdout(Stdio::null()).status();
    status.map_err(|error| format!("{program}: {error}"))?;
    Ok(begin.elapsed())
}

fn least_and_middle(times: &mut [Duration]) -> [Duration; 2] {
    times.sort();
    [times[0], times[times.len() / 2]]
}
