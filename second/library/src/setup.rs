//! Setup for every n, every f up to more than fits, and seats and entries at the edges.

use second::entry::Entry;
use second::replica::Replica;

use crate::arrays::{entry_words, Arrays};
use crate::asked::Asked;
use crate::cells::SETUP;
use crate::ffi;

const ENTRIES: [Entry; 6] = [
    *b"A1          \0\0\0\x01",
    *b"            \xff\xff\xff\xff",
    *b"~           \xff\xff\xff\xff",
    *b"!~!~!~!~!~!~\x80 \t\n",
    *b"A 1         \0\0\0\x01",
    [0; 16],
];

pub fn check(asked: &mut Asked) -> Result<(), String> {
    for n in 0..=u8::MAX {
        for f in (0..=20).chain([64, 255]) {
            for seat in [0, n.saturating_sub(1), n, 63, 64, 255] {
                ENTRIES.iter().try_for_each(|own| ask(n, f, seat, own, asked))?;
            }
        }
    }
    Ok(())
}

/// All words are written, whatever was in them.
fn ask(n: u8, f: u8, seat: u8, own: &Entry, asked: &mut Asked) -> Result<(), String> {
    let mut arrays = Arrays::filled_with(0x5a5a_a5a5_ffff_0101 ^ asked.calls);
    let (number, replica) = match Replica::setup(n, f, seat, *own) {
        Ok(replica) => (0, replica),
        Err(number) => (number, Replica::BLANK),
    };
    let got = ffi::setup(n, f, seat, entry_words(own), &mut arrays);
    asked.calls += 1;
    asked.cells.number(SETUP, number);
    let wanted = Arrays::of(&replica);
    if got == number && arrays == wanted {
        return Ok(());
    }
    let mut lines = vec![
        format!("setup of n {n}, f {f}, seat {seat}, entry {}", own.escape_ascii()),
        format!("expected: number {number}"),
        format!("got:      number {got}"),
    ];
    lines.extend(wanted.differences(&arrays).into_iter().take(8));
    Err(lines.join("\n  "))
}
