//! Runs another program on an input and shows where its output differs from what is expected.

use std::fs::{self, File};
use std::path::{Path, PathBuf};
use std::process::{self, Command, Stdio};

use crate::lines::read;
use crate::message::Message;

/// What a comparison found.
#[derive(Clone, Copy, PartialEq, Eq)]
pub enum Outcome {
    Same,
    Different,
}

/// A file of this process in the directory for temporary files.
pub fn temporary(name: &str) -> PathBuf {
    std::env::temp_dir().join(format!("second-{}-{name}", process::id()))
}

/// What the program prints for this file. What it says on standard error is not compared: on a bad H `trace` says what it wanted.
pub fn output_of(program: &str, arguments: &[&str], path: &Path) -> Result<Vec<u8>, String> {
    let input = File::open(path).map_err(|error| format!("{}: {error}", path.display()))?;
    let output = Command::new(program).args(arguments).stdin(input).stderr(Stdio::null()).output();
    output.map(|output| output.stdout).map_err(|error| format!("{program}: {error}"))
}

/// Compares two outputs; where they differ, saves the input and both and prints the first difference.
pub fn report(what: &str, input: &[u8], expected: &[u8], got: &[u8]) -> Result<Outcome, String> {
    if expected == got {
        return Ok(Outcome::Same);
    }
    println!("DIFFERENCE in {what}");
    for (name, bytes) in [("in", input), ("expected", expected), ("got", got)] {
        let path = temporary(&format!("difference.{name}"));
        fs::write(&path, bytes).map_err(|error| format!("{}: {error}", path.display()))?;
        println!("  saved: {}", path.display());
    }
    let at = first_difference(expected, got);
    println!("  expected, line {}: {}", at + 1, show(line(expected, at)));
    println!("  got,      line {}: {}", at + 1, show(line(got, at)));
    match event_at(expected, at) {
        Some(event) => println!("  input, event {event}: {}", show(event_line(input, event))),
        None => println!("  input, first line: {}", show(line(input, 0))),
    }
    Ok(Outcome::Different)
}

fn line(bytes: &[u8], at: usize) -> Option<&[u8]> {
    bytes.split_inclusive(|&byte| byte == b'\n').nth(at)
}

fn first_difference(left: &[u8], right: &[u8]) -> usize {
    let mut lefts = left.split_inclusive(|&byte| byte == b'\n');
    let mut rights = right.split_inclusive(|&byte| byte == b'\n');
    let mut at = 0;
    while let (Some(one), Some(other)) = (lefts.next(), rights.next()) {
        if one != other {
            break;
        }
        at += 1;
    }
    at
}

/// The number of the event that this line of the output belongs to: the last that stands at its line or above.
fn event_at(output: &[u8], at: usize) -> Option<usize> {
    let lines = output.split_inclusive(|&byte| byte == b'\n').take(at + 1);
    let numbers =
        lines.filter_map(|line| std::str::from_utf8(line.split(|&byte| byte == b'\t').next()?).ok()?.parse().ok());
    numbers.last().filter(|&event| event > 0)
}

/// The input line of an event, the rows of the requests before it left out.
fn event_line(input: &[u8], event: usize) -> Option<&[u8]> {
    let mut lines = input.split_inclusive(|&byte| byte == b'\n').skip(1);
    for _ in 1..event {
        if let Some(Message::Request { count: rows @ 1.., .. }) = read(lines.next()?) {
            lines.nth(usize::from(rows) - 1);
        }
    }
    lines.next()
}

/// A line as it can be printed, its beginning at least.
pub fn show(line: Option<&[u8]>) -> String {
    match line {
        Some(line) if line.len() > 300 => format!("{} .. ({} bytes)", line[..300].escape_ascii(), line.len()),
        Some(line) => line.escape_ascii().to_string(),
        None => "(no such line)".to_string(),
    }
}
