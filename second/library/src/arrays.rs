//! A replica as the library keeps it: six arrays of words.

use second::entry::Entry;
use second::random::Random;
use second::replica::{Replica, VoteRow};
use second::seats::ROOM;

/// The scalars in their order, and how many bits of each count. Of the words of a seat's kind, of views and of flags
/// the library takes the lowest 8, 32 and 1.
const SCALARS: [(&str, u32); 22] = [
    ("n", 8),
    ("f", 8),
    ("seat", 8),
    ("stage", 8),
    ("decided", 1),
    ("view", 32),
    ("vote cast", 1),
    ("vote verified", 1),
    ("vote view", 32),
    ("vote entry, bytes 0 to 7", 64),
    ("vote entry, bytes 8 to 15", 64),
    ("vote mask", 64),
    ("decision, bytes 0 to 7", 64),
    ("decision, bytes 8 to 15", 64),
    ("chosen, bytes 0 to 7", 64),
    ("chosen, bytes 8 to 15", 64),
    ("confirmed", 64),
    ("own entry, bytes 0 to 7", 64),
    ("own entry, bytes 8 to 15", 64),
    ("vote rows filled", 64),
    ("vote rows cast", 64),
    ("vote rows verified", 64),
];

#[derive(Clone, PartialEq, Eq)]
pub struct Arrays {
    pub scalars: [u64; 22],
    pub ack_entries: [u64; 2 * ROOM],
    pub ack_views: [u32; ROOM],
    pub vote_entries: [u64; 2 * ROOM],
    pub vote_masks: [u64; ROOM],
    pub vote_views: [u32; ROOM],
}

/// An entry's two words, "the first byte highest".
pub fn entry_words(entry: &Entry) -> [u64; 2] {
    let all = u128::from_be_bytes(*entry);
    [(all >> 64) as u64, all as u64]
}

impl Arrays {
    /// This word everywhere.
    pub fn filled_with(word: u64) -> Arrays {
        Arrays {
            scalars: [word; 22],
            ack_entries: [word; 2 * ROOM],
            ack_views: [word as u32; ROOM],
            vote_entries: [word; 2 * ROOM],
            vote_masks: [word; ROOM],
            vote_views: [word as u32; ROOM],
        }
    }

    pub fn of(replica: &Replica) -> Arrays {
        let mut arrays = Arrays { scalars: scalars_of(replica), ..Arrays::filled_with(0) };
        for (seat, row) in replica.acknowledged.iter().enumerate() {
            arrays.ack_views[seat] = row.view;
            arrays.ack_entries[2 * seat..2 * seat + 2].copy_from_slice(&entry_words(&row.entry));
        }
        for (seat, row) in replica.votes.iter().enumerate() {
            arrays.vote_views[seat] = row.vote.view;
            arrays.vote_masks[seat] = row.vote.mask;
            arrays.vote_entries[2 * seat..2 * seat + 2].copy_from_slice(&entry_words(&row.vote.entry));
        }
        arrays
    }

    /// Sets bits that do not count.
    pub fn add_high_bits(&mut self, random: &mut Random) {
        for (word, (_, bits)) in self.scalars.iter_mut().zip(SCALARS) {
            *word |= high_bits(random, bits);
        }
    }

    /// The same with 0 for every bit that does not count.
    pub fn without_high_bits(&self) -> Arrays {
        let mut arrays = self.clone();
        for (word, (_, bits)) in arrays.scalars.iter_mut().zip(SCALARS) {
            *word &= u64::MAX >> (64 - bits);
        }
        arrays
    }

    /// What another replica has in other words, by name.
    pub fn differences(&self, got: &Arrays) -> Vec<String> {
        let wide = |words: &[u32]| words.iter().map(|&word| u64::from(word)).collect::<Vec<_>>();
        let mut found = Vec::new();
        for (at, (expected, got)) in self.scalars.iter().zip(&got.scalars).enumerate() {
            found.extend(difference(&format!("scalars[{at}], {}", SCALARS[at].0), *expected, *got));
        }
        found.extend(all_differences("ack_entries", &self.ack_entries, &got.ack_entries));
        found.extend(all_differences("ack_views", &wide(&self.ack_views), &wide(&got.ack_views)));
        found.extend(all_differences("vote_entries", &self.vote_entries, &got.vote_entries));
        found.extend(all_differences("vote_masks", &self.vote_masks, &got.vote_masks));
        found.extend(all_differences("vote_views", &wide(&self.vote_views), &wide(&got.vote_views)));
        found
    }
}

/// Random bits above the lowest ones that count.
pub fn high_bits(random: &mut Random, bits: u32) -> u64 {
    random.word().checked_shl(bits).unwrap_or(0)
}

fn scalars_of(replica: &Replica) -> [u64; 22] {
    let [vote, decision] = [entry_words(&replica.vote.entry), entry_words(&replica.decision)];
    let [chosen, own] = [entry_words(&replica.chosen), entry_words(&replica.own)];
    [
        u64::from(replica.n),
        u64::from(replica.f),
        u64::from(replica.seat),
        u64::from(replica.stage),
        u64::from(replica.decided),
        u64::from(replica.view),
        u64::from(replica.vote.cast),
        u64::from(replica.vote.verified),
        u64::from(replica.vote.view),
        vote[0],
        vote[1],
        replica.vote.mask,
        decision[0],
        decision[1],
        chosen[0],
        chosen[1],
        replica.confirmed,
        own[0],
        own[1],
        row_bits(replica, |row| row.filled),
        row_bits(replica, |row| row.vote.cast),
        row_bits(replica, |row| row.vote.verified),
    ]
}

/// The mask of the seats whose vote row this holds for.
fn row_bits(replica: &Replica, holds: impl Fn(&VoteRow) -> bool) -> u64 {
    replica.votes.iter().rev().fold(0, |mask, row| mask << 1 | u64::from(holds(row)))
}

fn all_differences(name: &str, expected: &[u64], got: &[u64]) -> Vec<String> {
    let pairs = expected.iter().zip(got).enumerate();
    pairs.filter_map(|(at, (expected, got))| difference(&format!("{name}[{at}]"), *expected, *got)).collect()
}

fn difference(name: &str, expected: u64, got: u64) -> Option<String> {
    (expected != got).then(|| format!("{name}: expected {expected:#x}, got {got:#x}"))
}
