//! Replicas that are close to something rare, and events that a replica is likely to take.

use second::message::{Head, Message, Row};
use second::random::Random;
use second::replica::{Acknowledged, Replica, VoteRow, ASKING, COLLECTING};
use second::seats::{largest_f, leader};
use second::selection::{select, votes_of, Choice};
use second::twists::good_rows;
use second::values::{entry, good_mask, Scenario};
use second::vote::Vote;

/// A leader that lacks a few votes, while the rest are split between two entries at one view.
pub fn split_leader(random: &mut Random) -> Replica {
    let n = if random.chance(60) { random.between(4, 14) } else { random.between(4, 64) } as u8;
    let f = if random.chance(70) { largest_f(n) } else { random.between(1, u64::from(largest_f(n))) as u8 };
    let seat = random.below(u64::from(n)) as u8;
    let view = u32::from(seat) + u32::from(n) * random.between(1, 3) as u32;
    let w = random.between(1, u64::from(view) - 1) as u32;
    let mut replica = Replica { n, f, seat, own: entry(random), view, stage: COLLECTING, ..Replica::BLANK };
    let pair = [entry(random), entry(random)];
    let mut seats: Vec<u8> = (0..n).filter(|&seat| seat != leader(w, n)).collect();
    random.shuffle(&mut seats);
    for (turn, &seat) in seats.iter().skip(random.pick(&[1, 1, 2, 3])).enumerate() {
        let vote =
            Vote { cast: true, view: w, entry: pair[turn % 2], mask: good_mask(random, n, f, w), verified: true };
        replica.votes[usize::from(seat)] = VoteRow { filled: true, vote };
    }
    replica
}

/// An event for a replica that setup would take.
pub fn event(random: &mut Random, replica: &Replica) -> (Message, Vec<Row>) {
    let leads = replica.leads(replica.seat, replica.view);
    let message = match random.below(10) {
        0 => Message::Enter { view: later_view(random, replica) },
        1 if replica.view == 1 => Message::Start,
        1..=3 => acknowledgement(random, replica),
        4 => proposal(random, replica),
        _ if leads && replica.stage == COLLECTING => vote(random, replica),
        _ if leads && replica.stage == ASKING => confirmation(random, replica),
        5 | 6 => return request(random, replica),
        7 => acknowledgement(random, replica),
        8 => vote(random, replica),
        _ => confirmation(random, replica),
    };
    (message, Vec::new())
}

fn head(replica: &Replica, seat: u8) -> Head {
    Head { seat, verified: true, view: replica.view }
}

/// A later view, often the next that this seat leads.
fn later_view(random: &mut Random, replica: &Replica) -> u32 {
    let (n, next) = (u32::from(replica.n), replica.view.saturating_add(1));
    let led = next.saturating_add((n + u32::from(replica.seat) - next % n) % n);
    random.pick(&[next, led, led])
}

/// What another row says already, from a seat whose row can still take it.
fn acknowledgement(random: &mut Random, replica: &Replica) -> Message {
    let rows = &replica.acknowledged[..usize::from(replica.n)];
    let filled: Vec<Acknowledged> = rows.iter().filter(|row| row.view != 0).copied().collect();
    let Acknowledged { view, entry } = if filled.is_empty() {
        Acknowledged { view: random.pick(&[1, replica.view]), entry: entry(random) }
    } else {
        random.pick(&filled)
    };
    let seat = any_seat(random, replica, |seat| rows[usize::from(seat)].view < view);
    Message::Acknowledgement { head: Head { view, ..head(replica, seat) }, entry }
}

fn proposal(random: &mut Random, replica: &Replica) -> Message {
    let Replica { n, f, view, .. } = *replica;
    let mask = good_mask(random, n, f, view);
    Message::Proposal { head: head(replica, leader(view, n)), entry: entry(random), mask }
}

/// A vote like that of another row, or any valid one, from a seat whose row is not filled.
fn vote(random: &mut Random, replica: &Replica) -> Message {
    let seat = any_seat(random, replica, |seat| replica.filled_row(seat).is_none());
    let filled: Vec<Vote> = replica.filled_rows().map(|(_, vote)| *vote).collect();
    let like = !filled.is_empty() && random.chance(70);
    let vote = if like {
        random.pick(&filled)
    } else {
        Scenario::new(random, replica.view).vote(random, replica.n, replica.f)
    };
    Message::Vote(Row { head: head(replica, seat), vote })
}

fn confirmation(random: &mut Random, replica: &Replica) -> Message {
    let seat = any_seat(random, replica, |seat| replica.confirmed >> seat & 1 == 0);
    Message::Confirmation { head: head(replica, seat), entry: replica.chosen }
}

/// A request for what its rows force, or for anything.
fn request(random: &mut Random, replica: &Replica) -> (Message, Vec<Row>) {
    let Replica { n, f, view, .. } = *replica;
    let rows = good_rows(random, replica);
    let entry = match select(n, f, votes_of(&rows)).choice {
        Choice::Forced(entry) if random.chance(80) => entry,
        _ => entry(random),
    };
    (Message::Request { head: head(replica, leader(view, n)), entry, count: 0 }, rows)
}

/// One of the seats that this holds for, or any where it holds for none.
fn any_seat(random: &mut Random, replica: &Replica, holds: impl Fn(u8) -> bool) -> u8 {
    let seats: Vec<u8> = (0..replica.n).filter(|&seat| holds(seat)).collect();
    if seats.is_empty() {
        random.below(u64::from(replica.n)) as u8
    } else {
        random.pick(&seats)
    }
}
