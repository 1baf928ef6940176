//! Replicas built by hand, sane for the most part and wild in places, and events for them.

use crate::message::{Message, Row};
use crate::random::Random;
use crate::replica::{Acknowledged, Replica, VoteRow};
use crate::seats::{largest_f, ROOM};
use crate::twists::{bad_rows, good_rows, likely_message, twist};
use crate::values::{bad_entry, entry, few_entries, good_mask, Scenario};
use crate::vote::Vote;

/// A replica that no run of events need ever have led to.
pub fn replica(random: &mut Random) -> Replica {
    let n = if random.chance(60) { random.between(4, 9) } else { random.between(4, 64) } as u8;
    let f = if random.chance(60) { largest_f(n) } else { random.between(1, u64::from(largest_f(n))) as u8 };
    let seat = random.below(u64::from(n)) as u8;
    let mut replica = Replica { n, f, seat, own: entry(random), ..Replica::BLANK };
    replica.view = view(random, &replica);
    replica.stage =
        if random.chance(95) { random.pick(&[0, 1, 1, 1, 2, 2, 2, 3]) } else { random.between(4, 255) as u8 };
    replica.decided = random.chance(30);
    replica.decision = entry(random);
    replica.chosen = if random.chance(90) { entry(random) } else { bad_entry(random) };
    replica.confirmed = confirmed(random, n, f);
    replica.vote = own_vote(random, &replica);
    fill_acknowledged(random, &mut replica);
    fill_votes(random, &mut replica);
    if random.chance(10) {
        spoil_setup(random, &mut replica);
    }
    replica
}

/// Often a view that the seat leads, sometimes 1, 0 or the highest.
fn view(random: &mut Random, replica: &Replica) -> u32 {
    let led = u32::from(replica.seat) + u32::from(replica.n) * random.below(3) as u32;
    match random.below(20) {
        0 => 0,
        1 => u32::MAX,
        2..=4 => 1,
        5..=8 => random.between(1, 12) as u32,
        9 => random.word() as u32,
        _ => led,
    }
}

/// Few seats below n, and now and then any bits above.
fn confirmed(random: &mut Random, n: u8, f: u8) -> u64 {
    let count = random.below(u64::from(f) + 3) as usize;
    let below = random.seats(n, count);
    let above = if n < 64 && random.chance(30) { random.word() << n } else { 0 };
    below | above
}

/// Nil, of an earlier view, of this one, of a later one, or with anything wrong.
fn own_vote(random: &mut Random, replica: &Replica) -> Vote {
    let Replica { n, f, view, .. } = *replica;
    let mut vote = Scenario::new(random, view).vote(random, n, f);
    match random.below(8) {
        0 => vote = Scenario::new(random, view).bad_vote(random, n, f),
        1 => (vote.cast, vote.view) = (true, view),
        2 => (vote.cast, vote.view) = (true, view.saturating_add(1)),
        // A nil vote whose unused fields are those of a vote of this view.
        3 => vote = Vote { cast: false, view, entry: entry(random), mask: random.word(), verified: true },
        _ => {}
    }
    vote
}

/// Rows of few views and entries, so that many are shared; seats n and above have some too.
fn fill_acknowledged(random: &mut Random, replica: &mut Replica) {
    let entries = few_entries(random);
    let views = [replica.view, replica.view.saturating_sub(1), 1, replica.view.saturating_add(1)];
    let common = Acknowledged { view: random.pick(&views), entry: entries[0] };
    let [empty, other] = [random.pick(&[0, 10, 50, 95]), random.pick(&[0, 5, 50])];
    for seat in 0..ROOM {
        let filled = if seat < usize::from(replica.n) { !random.chance(empty) } else { random.chance(30) };
        let mut row = common;
        if random.chance(other) {
            row = Acknowledged { view: random.pick(&views), entry: random.pick(&entries) };
        }
        if !filled {
            row.view = 0;
        }
        replica.acknowledged[seat] = row;
    }
}

/// Mostly valid rows for the current view; some invalid ones and some of seats n and above.
fn fill_votes(random: &mut Random, replica: &mut Replica) {
    let Replica { n, f, view, .. } = *replica;
    let scenario = Scenario::new(random, view);
    let [empty, bad] = [random.pick(&[0, 10, 30, 60, 100]), random.pick(&[0, 5, 30])];
    for seat in 0..ROOM {
        let filled = if seat < usize::from(n) { !random.chance(empty) } else { random.chance(30) };
        let vote = if random.chance(bad) { scenario.bad_vote(random, n, f) } else { scenario.vote(random, n, f) };
        replica.votes[seat] = VoteRow { filled, vote };
    }
}

/// Something that setup would refuse.
fn spoil_setup(random: &mut Random, replica: &mut Replica) {
    for _ in 0..random.pick(&[1, 1, 2, 3]) {
        match random.below(5) {
            0 => replica.n = random.pick(&[0, 1, 3, 65, 99, 255]),
            1 => replica.f = random.pick(&[0, largest_f(replica.n.min(64)) + 1, replica.n, 255]),
            2 => replica.seat = random.pick(&[replica.n, 64, 255]),
            3 => replica.own = bad_entry(random),
            _ => *replica = Replica { view: replica.view, ..Replica::BLANK },
        }
    }
}

/// An event for a replica and a request's rows, with nothing, something or much wrong.
pub fn event(random: &mut Random, replica: &Replica) -> (Message, Vec<Row>) {
    let tame = tamed(replica);
    let mut message = match random.below(10) {
        0 => Message::Enter { view: random.pick(&[0, replica.view, replica.view.saturating_add(1), u32::MAX]) },
        1 => Message::Start,
        _ => likely_message(random, &tame),
    };
    for _ in 0..random.pick(&[0, 0, 0, 1, 1, 2, 3]) {
        twist(random, &tame, &mut message);
    }
    if let Some(head) = message.head_mut().filter(|_| random.chance(2)) {
        head.seat = random.word() as u8;
    }
    (message, rows(random, &tame, &message))
}

fn rows(random: &mut Random, tame: &Replica, message: &Message) -> Vec<Row> {
    if !matches!(message, Message::Request { .. }) {
        return Vec::new();
    }
    let rows = good_rows(random, tame);
    if random.chance(30) {
        bad_rows(random, tame, rows)
    } else {
        rows
    }
}

/// The replica with n, f and seat that events can be made for.
fn tamed(replica: &Replica) -> Replica {
    let n = replica.n.clamp(4, 64);
    Replica { n, f: replica.f.clamp(1, largest_f(n)), seat: replica.seat.min(n - 1), ..replica.clone() }
}

/// What the selection by itself may be called with.
pub struct Question {
    pub n: u8,
    pub f: u8,
    pub view: u32,
    pub rows: Vec<Row>,
}

pub fn question(random: &mut Random) -> Question {
    let asked = replica(random);
    let tame = tamed(&asked);
    let mut rows = good_rows(random, &tame);
    match random.below(10) {
        0..=2 => rows = bad_rows(random, &tame, rows),
        3 => rows.truncate(random.index(rows.len() + 1)),
        4 => rows.extend_from_slice(&rows.clone()),
        _ => {}
    }
    Question { n: asked.n, f: asked.f, view: asked.view, rows }
}

/// A message to write, with seats and counts that lines have no room for.
pub fn message(random: &mut Random) -> Message {
    let tame = tamed(&replica(random));
    let mut message = event(random, &tame).0;
    if let Some(head) = message.head_mut() {
        let any = random.word();
        head.seat = random.pick(&[0, 9, 10, 63, 64, 99, 100, 255, any as u8]);
        head.view = random.pick(&[0, 9, 10, 1_000_000_000, u32::MAX, (any >> 32) as u32]);
    }
    match &mut message {
        Message::Request { count, .. } => *count = random.pick(&[0, 9, 10, 64, 65, 255]),
        Message::Vote(row) if random.chance(50) => row.vote.mask = good_mask(random, 64, 13, 2),
        _ => {}
    }
    message
}
