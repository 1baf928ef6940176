//! The command `cases`: written traces with the output that the rules ask for.

use std::fs;
use std::path::{Path, PathBuf};

use crate::compare::{self, Outcome};
use crate::trace::{trace, Unwatched};

/// Runs all cases through the program and through this model; false where an output is not the one written down.
pub fn run(directory: &str, program: &str) -> Result<bool, String> {
    let inputs = inputs(Path::new(directory))?;
    if inputs.is_empty() {
        return Err(format!("{directory} has no .in files"));
    }
    let mut failed = 0;
    for path in &inputs {
        let input = read(path)?;
        let wanted = read(&path.with_extension("out"))?;
        let mut own = Vec::new();
        trace(&input[..], &mut own, &mut Unwatched).map_err(|error| error.to_string())?;
        let other = compare::output_of(program, &[], path)?;
        for (whose, output) in [("this model", &own), (program, &other)] {
            let what = format!("{}, {whose}", path.display());
            failed += usize::from(compare::report(&what, &input, &wanted, output)? == Outcome::Different);
        }
    }
    println!("cases: {} cases, {failed} differences", inputs.len());
    Ok(failed == 0)
}

/// The .in files of a directory in the order of their names.
fn inputs(directory: &Path) -> Result<Vec<PathBuf>, String> {
    let entries = fs::read_dir(directory).map_err(|error| format!("{}: {error}", directory.display()))?;
    let mut paths: Vec<PathBuf> = entries.filter_map(|entry| Some(entry.ok()?.path())).collect();
    paths.retain(|path| path.extension().is_some_and(|extension| extension == "in"));
    paths.sort();
    Ok(paths)
}

fn read(path: &Path) -> Result<Vec<u8>, String> {
    fs::read(path).map_err(|error| format!("{}: {error}", path.display()))
}
