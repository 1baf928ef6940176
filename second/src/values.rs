//! Random entries, masks and votes, good and bad.

use crate::entry::Entry;
use crate::random::Random;
use crate::seats::seats_below;
use crate::vote::Vote;

/// Two entries that differ only by where a blank stands.
pub const TWINS: [Entry; 2] = [*b"A1          2xyz", *b"A12          xyz"];

/// Well-formed entries that are easily mixed up: the twins, two that differ by a byte above 0x7F, extreme serials.
const ENTRIES: [Entry; 8] = [
    TWINS[0],
    TWINS[1],
    *b"A1          \x7f\0\0\0",
    *b"A1          \x80\0\0\0",
    *b"!           \0\0\0\0",
    *b"~~~~~~~~~~~~\xff\xff\xff\xff",
    *b"!\"#$%&'()*+,\n\t\r ",
    *b"Zebra-77    \xab\xcd\xef\x01",
];

pub fn entry(random: &mut Random) -> Entry {
    random.pick(&ENTRIES)
}

/// One to three entries, mostly two, and often the twins.
pub fn few_entries(random: &mut Random) -> Vec<Entry> {
    let mut entries = ENTRIES.to_vec();
    if random.chance(75) {
        random.shuffle(&mut entries);
    }
    entries.truncate(random.pick(&[1, 2, 2, 2, 3]));
    entries
}

/// Twelve blanks, booked as a device.
const NO_SERIAL: Entry = *b"            \0\0\0\x01";

/// An entry whose serial is not well formed, often twelve blanks.
pub fn bad_entry(random: &mut Random) -> Entry {
    if random.chance(25) {
        return NO_SERIAL;
    }
    let mut entry = *b"AB12        \0\0\0\x01";
    match random.below(3) {
        0 => entry[random.index(4)] = random.pick(&[0x00, 0x1f, 0x7f, 0x80, 0xff, 0x20]),
        1 => entry[4 + random.index(8)] = random.pick(&[0x00, 0x09, 0x1f, 0x7f, 0xa0]),
        _ => entry[5 + random.index(7)] = random.pick(b"!A~"),
    }
    // A blank for the last byte of the stretch leaves the entry well formed.
    if entry[3] == 0x20 {
        entry[11] = 0;
    }
    entry
}

/// A mask that is a good certificate for the view, f + 1 seats more often than not.
pub fn good_mask(random: &mut Random, n: u8, f: u8, view: u32) -> u64 {
    if view <= 1 {
        return 0;
    }
    let least = usize::from(f) + 1;
    let count = if random.chance(70) { least } else { random.between(least as u64, u64::from(n)) as usize };
    random.seats(n, count)
}

/// A mask that is not.
pub fn bad_mask(random: &mut Random, n: u8, f: u8, view: u32) -> u64 {
    let few = random.seats(n, usize::from(f));
    if view == 1 {
        return few;
    }
    let high = !seats_below(n);
    let one_high = if high == 0 { 0 } else { 1 << random.between(u64::from(n), 63) };
    match random.below(5) {
        0 => 0,
        1 if high != 0 => few | one_high,
        2 if high != 0 => good_mask(random, n, f, view) | one_high,
        3 if high != 0 => high,
        _ => few,
    }
}

/// What the votes of one view are about: a highest view, some entries, and how often a seat has another vote.
pub struct Scenario {
    view: u32,
    highest: u32,
    entries: Vec<Entry>,
    nil: u64,
    older: u64,
}

impl Scenario {
    /// A scenario for the votes of `view`.
    pub fn new(random: &mut Random, view: u32) -> Scenario {
        let before = view.saturating_sub(1);
        let highest = match random.below(10) {
            0 => 1,
            1 | 2 => 1 + random.below(u64::from(before.max(1))) as u32,
            _ => before,
        };
        let nil = if before == 0 { 100 } else { random.pick(&[0, 0, 5, 20, 50, 90, 100]) };
        Scenario { view, highest, entries: few_entries(random), nil, older: random.pick(&[0, 0, 0, 10, 40]) }
    }

    /// A valid vote.
    pub fn vote(&self, random: &mut Random, n: u8, f: u8) -> Vote {
        if random.chance(self.nil) {
            return Vote::NIL;
        }
        let older = self.highest > 1 && random.chance(self.older);
        let view = if older { 1 + random.below(u64::from(self.highest) - 1) as u32 } else { self.highest };
        let entry = random.pick(&self.entries);
        Vote { cast: true, view, entry, mask: good_mask(random, n, f, view), verified: true }
    }

    /// A vote with one thing wrong.
    pub fn bad_vote(&self, random: &mut Random, n: u8, f: u8) -> Vote {
        let view = if self.view > 1 { self.highest } else { 1 };
        let mask = good_mask(random, n, f, view);
        let mut vote = Vote { cast: true, view, entry: random.pick(&self.entries), mask, verified: true };
        match random.below(6) {
            0 => (vote.view, vote.mask) = (0, random.pick(&[0, vote.mask])),
            1 => vote.view = self.view,
            2 => vote.view = self.view.saturating_add(random.pick(&[0, 1, u32::from(n), u32::MAX])),
            3 => vote.entry = bad_entry(random),
            4 => vote.mask = bad_mask(random, n, f, view),
            _ => vote.verified = false,
        }
        if vote.view > view {
            vote.mask = good_mask(random, n, f, vote.view);
        }
        vote
    }
}
