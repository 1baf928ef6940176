//! Messages and rows that a replica might get now, and what may be wrong in them.

use crate::message::{Head, Message, Row};
use crate::random::Random;
use crate::replica::Replica;
use crate::seats::leader;
use crate::values::{bad_entry, bad_mask, entry, good_mask, Scenario};

/// A message of any kind but E, as it might come in the current view.
pub fn likely_message(random: &mut Random, replica: &Replica) -> Message {
    let Replica { n, f, view, .. } = *replica;
    let sender = if random.chance(50) { leader(view, n) } else { random.below(u64::from(n)) as u8 };
    let head = Head { seat: sender, verified: true, view };
    let entry = if random.chance(30) { replica.chosen } else { entry(random) };
    match random.below(20) {
        0 => Message::Start,
        1..=4 => Message::Proposal { head, entry, mask: good_mask(random, n, f, view) },
        5..=8 => Message::Acknowledgement { head, entry },
        9..=12 => Message::Vote(Row { head, vote: Scenario::new(random, view).vote(random, n, f) }),
        13..=15 => Message::Request { head, entry, count: 0 },
        _ => Message::Confirmation { head, entry },
    }
}

/// Changes one thing.
pub fn twist(random: &mut Random, replica: &Replica, message: &mut Message) {
    match message {
        Message::Start => {}
        Message::Enter { view } => *view = other_view(random, *view),
        Message::Proposal { head, entry, mask } => match random.below(6) {
            0 => *entry = bad_entry(random),
            1 | 2 => *mask = bad_mask(random, replica.n, replica.f, head.view),
            _ => twist_head(random, replica, head),
        },
        Message::Acknowledgement { head, entry: named }
        | Message::Confirmation { head, entry: named }
        | Message::Request { head, entry: named, .. } => match random.below(6) {
            0 => *named = bad_entry(random),
            1 => *named = entry(random),
            _ => twist_head(random, replica, head),
        },
        Message::Vote(row) => match random.below(6) {
            0..=2 => row.vote = Scenario::new(random, replica.view).bad_vote(random, replica.n, replica.f),
            _ => twist_head(random, replica, &mut row.head),
        },
    }
}

fn twist_head(random: &mut Random, replica: &Replica, head: &mut Head) {
    match random.below(4) {
        0 => head.seat = random.between(u64::from(replica.n), 99) as u8,
        1 => head.seat = random.below(u64::from(replica.n)) as u8,
        2 => head.verified = false,
        _ => head.view = other_view(random, head.view),
    }
}

/// The highest views are rare: an acknowledgement of one shuts its sender's row for the rest of the run.
fn other_view(random: &mut Random, view: u32) -> u32 {
    match random.below(20) {
        0..=6 => 0,
        7..=12 => view.saturating_sub(1),
        13..=17 => view.saturating_add(1),
        18 => u32::MAX,
        _ => random.word() as u32,
    }
}

/// n − f to n valid rows for the current view.
pub fn good_rows(random: &mut Random, replica: &Replica) -> Vec<Row> {
    let Replica { n, f, view, .. } = *replica;
    let count = match random.below(4) {
        0 => n,
        1 => random.between(u64::from(n - f), u64::from(n)) as u8,
        _ => n - f,
    };
    let seats = random.seats(n, usize::from(count));
    let scenario = Scenario::new(random, view);
    let row = |seat| Row { head: Head { seat, verified: true, view }, vote: scenario.vote(random, n, f) };
    (0..n).filter(|seat| seats >> seat & 1 == 1).map(row).collect()
}

/// Breaks one of 15's conditions.
pub fn bad_rows(random: &mut Random, replica: &Replica, mut rows: Vec<Row>) -> Vec<Row> {
    let Replica { n, f, view, .. } = *replica;
    let (which, last) = (random.index(rows.len()), rows.len() - 1);
    match random.below(10) {
        0 => rows.truncate(random.index(usize::from(n - f))),
        1 => rows.insert(which, rows[which]),
        2 => rows.swap(which, (which + 1) % (last + 1)),
        3 => rows[last].head.seat = random.between(u64::from(n), 99) as u8,
        4 => rows[which].head.verified = false,
        5 => rows[which].head.view = random.pick(&[0, 1, view.saturating_sub(1), view.saturating_add(1), u32::MAX]),
        6 => rows[which].vote = Scenario::new(random, view).bad_vote(random, n, f),
        7 => add_high_seats(&mut rows, n),
        8 => repeat_first(&mut rows, n),
        _ => twist_head(random, replica, &mut rows[which].head),
    }
    rows.truncate(64);
    rows
}

/// Rows of seats n and above, up to 64 rows.
fn add_high_seats(rows: &mut Vec<Row>, n: u8) {
    let first = rows[0];
    let more = (64 - rows.len()) as u8;
    rows.extend((0..more).map(|above| Row { head: Head { seat: n + above, ..first.head }, ..first }));
}

/// More than n rows, with nothing else wrong than that a seat comes again and again.
fn repeat_first(rows: &mut Vec<Row>, n: u8) {
    while rows.len() <= usize::from(n) {
        rows.insert(0, rows[0]);
    }
}
