//! What all questions share: the cells, the calls, and what they lend to the library.

use std::fs;

use second::compare::temporary;
use second::random::Random;

use crate::cells::Cells;

/// Bytes behind those lent, which have to stay as well.
pub const BEHIND: usize = 32;

pub struct Asked {
    pub cells: Cells,
    pub calls: u64,
}

/// Bytes to lend a part of: each differs from its neighbours, and all of them from one question to the next.
pub fn pattern(random: &mut Random, length: usize) -> Vec<u8> {
    let salt = random.word() as u8;
    (0..length).map(|at| (at as u8).wrapping_mul(37) ^ salt).collect()
}

/// Where two lots of bytes differ first.
pub fn first_byte(expected: &[u8], got: &[u8]) -> Option<String> {
    let at = expected.iter().zip(got).position(|(expected, got)| expected != got)?;
    Some(format!("byte {at}: expected {:#04x}, got {:#04x}", expected[at], got[at]))
}

/// Saves what is too long to be shown and gives the place.
pub fn save(name: &str, bytes: &[u8]) -> String {
    let path = temporary(&format!("difference.{name}"));
    match fs::write(&path, bytes) {
        Ok(()) => format!("saved: {}", path.display()),
        Err(error) => format!("not saved, {}: {error}", path.display()),
    }
}
