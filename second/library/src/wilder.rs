//! Replicas by hand with still more in them than the command `wild` asks about, and texts for them.

use second::entry::Entry;
use second::message::Message;
use second::random::Random;
use second::replica::{Acknowledged, Replica, VoteRow};
use second::runs::damage::damaged_line;
use second::runs::script::event_lines;
use second::seats::largest_f;
use second::values::{bad_entry, entry};
use second::vote::Vote;
use second::wild::replicas;

use crate::fitting;

pub fn replica(random: &mut Random) -> Replica {
    let mut replica = match random.below(20) {
        0 => noise(random),
        1 | 2 => fitting::split_leader(random),
        _ => replicas::replica(random),
    };
    if random.chance(40) {
        fill_unused(random, &mut replica);
    }
    if random.chance(6) {
        go_to_edge(random, &mut replica);
    }
    replica
}

/// Anything in every field; n, f, seat and own entry are mostly such that setup would take them.
fn noise(random: &mut Random) -> Replica {
    let n = random.between(4, 64) as u8;
    let f = random.between(1, u64::from(largest_f(n))) as u8;
    let mut replica = Replica { n, f, seat: random.below(u64::from(n)) as u8, own: entry(random), ..Replica::BLANK };
    if random.chance(10) {
        [replica.n, replica.f, replica.seat] = [(); 3].map(|()| random.word() as u8);
    }
    replica.stage = random.word() as u8;
    replica.decided = random.chance(50);
    replica.view = any_view(random);
    replica.vote = any_vote(random);
    [replica.decision, replica.chosen] = [any_entry(random), any_entry(random)];
    replica.confirmed = random.word();
    replica.acknowledged.fill_with(|| Acknowledged { view: any_view(random), entry: any_entry(random) });
    replica.votes.fill_with(|| VoteRow { filled: random.chance(50), vote: any_vote(random) });
    replica
}

fn any_view(random: &mut Random) -> u32 {
    if random.chance(70) {
        random.below(9) as u32
    } else {
        random.word() as u32
    }
}

fn any_entry(random: &mut Random) -> Entry {
    match random.below(4) {
        0 => (u128::from(random.word()) << 64 | u128::from(random.word())).to_be_bytes(),
        1 => bad_entry(random),
        _ => entry(random),
    }
}

fn any_vote(random: &mut Random) -> Vote {
    Vote {
        cast: random.chance(50),
        view: any_view(random),
        entry: any_entry(random),
        mask: random.word() & random.word(),
        verified: random.chance(50),
    }
}

/// Fields of nil votes, which nothing should look at and only an event that names them should touch.
fn fill_unused(random: &mut Random, replica: &mut Replica) {
    let often = random.pick(&[20, 100]);
    let own = std::iter::once(&mut replica.vote);
    for vote in own.chain(replica.votes.iter_mut().map(|row| &mut row.vote)) {
        if !vote.cast && random.chance(often) {
            *vote = Vote { cast: false, ..any_vote(random) };
        }
    }
}

/// The largest house with no acknowledgement or with all alike: the ends of the margin.
fn go_to_edge(random: &mut Random, replica: &mut Replica) {
    [replica.n, replica.f] = random.pick(&[[64, 1], [64, 13]]);
    let row = Acknowledged { view: random.pick(&[0, 1, u32::MAX]), entry: entry(random) };
    replica.acknowledged.fill(row);
}

/// The lines of an event that this replica might get, now and then not whole.
pub fn event(random: &mut Random, replica: &Replica) -> Vec<u8> {
    let fits = replica.setup_number() == 0 && random.chance(60);
    let (mut message, rows) = if fits { fitting::event(random, replica) } else { replicas::event(random, replica) };
    if let Some(head) = message.head_mut() {
        // A line has no room for more; these are told apart by the writer alone.
        head.seat %= 100;
    }
    let lines = event_lines(&message, &rows);
    match random.below(40) {
        0 | 1 => damaged_first(random, replica, &lines),
        2 => lines[..lines.len() - 1].to_vec(),
        3..=12 if matches!(message, Message::Request { .. }) => broken_request(random, replica, &lines),
        _ => lines,
    }
}

/// Damage to the first line: the rows of a request are events of their own then.
fn damaged_first(random: &mut Random, replica: &Replica, lines: &[u8]) -> Vec<u8> {
    let end = lines.iter().position(|&byte| byte == b'\n').map_or(lines.len(), |last| last + 1);
    let mut damaged = damaged_line(random, replica, &lines[..end]).1;
    damaged.extend_from_slice(&lines[end..]);
    damaged
}

/// A request with a line among its rows that is no V line, or with rows missing.
fn broken_request(random: &mut Random, replica: &Replica, whole: &[u8]) -> Vec<u8> {
    let mut lines: Vec<Vec<u8>> = whole.split_inclusive(|&byte| byte == b'\n').map(<[u8]>::to_vec).collect();
    if lines.len() < 2 {
        return whole.to_vec();
    }
    let which = 1 + random.index(lines.len() - 1);
    match random.below(4) {
        0 => lines.truncate(which),
        1 => lines[which] = lines[0].clone(),
        2 => lines[which] = random.pick(&[&b"\n"[..], b"S\n", b"E\t3\n"]).to_vec(),
        _ => lines[which] = damaged_line(random, replica, &lines[which]).1,
    }
    lines.concat()
}
