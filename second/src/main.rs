//! The commands of the second program.

use std::io;
use std::process::ExitCode;

use second::options::{number, Options};
use second::{bench, cases, make, runs, trace, wild, SEED};

const USAGE: &str = "usage:
  second trace < IN > OUT
  second runs --trace PATH [--seed N] [--events N]
  second cases DIR --trace PATH
  second make n4|n9|n64|worst LINES > FILE
  second wild [--seed N] [--count N]
  second bench --trace PATH [--lines N] [--turns K]";

fn main() -> ExitCode {
    match command() {
        Ok(true) => ExitCode::SUCCESS,
        Ok(false) => ExitCode::from(1),
        Err(error) => {
            eprintln!("second: {error}");
            ExitCode::from(2)
        }
    }
}

/// Runs the command asked for; false where it found a difference.
fn command() -> Result<bool, String> {
    let mut words = std::env::args().skip(1);
    let command = words.next().ok_or(USAGE)?;
    let known: &[&str] = match command.as_str() {
        "runs" => &["--trace", "--seed", "--events"],
        "cases" => &["--trace"],
        "wild" => &["--seed", "--count"],
        "bench" => &["--trace", "--lines", "--turns"],
        _ => &[],
    };
    let options = Options::new(words, known)?;
    match command.as_str() {
        "trace" => {
            options.plain([])?;
            let traced = trace::trace(io::stdin().lock(), io::stdout().lock(), &mut trace::Unwatched);
            traced.map(|_| true).map_err(|error| error.to_string())
        }
        "runs" => {
            options.plain([])?;
            runs::run(options.text("--trace")?, options.number("--seed", SEED)?, options.number("--events", 1_200_000)?)
        }
        "cases" => {
            let [directory] = options.plain(["DIR"])?;
            cases::run(directory, options.text("--trace")?)
        }
        "make" => {
            let [kind, lines] = options.plain(["KIND", "LINES"])?;
            make::print(kind, number("LINES", lines)?).map(|()| true)
        }
        "wild" => {
            options.plain([])?;
            wild::run(options.number("--seed", SEED)?, options.number("--count", 200_000)?)
        }
        "bench" => {
            options.plain([])?;
            bench::run(options.text("--trace")?, options.number("--lines", 1_000_000)?, options.number("--turns", 7)?)
        }
        _ => Err(format!("unknown command {command}\n{USAGE}")),
    }
}
