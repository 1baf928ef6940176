//! Runs that are steered by the watched seat's own state, chapter after chapter, to reach what is rare in a house.

use crate::entry::Entry;
use crate::message::{Message, Row};
use crate::replica::{Replica, ASKING, COLLECTING};
use crate::runs::damage;
use crate::runs::noise::{any_message, replay, sprinkle, twisted};
use crate::runs::requests;
use crate::runs::script::Script;
use crate::seats::leader;
use crate::values::{entry, few_entries, good_mask, Scenario, TWINS};

/// Writes chapters until the script has this many events; at the end some runs go up to the highest view.
pub fn play(script: &mut Script, events: usize) {
    let high = script.random.chance(30);
    while script.events() < events {
        let near_end = script.events() * 10 > events * 9;
        if high && near_end && script.replica.view < u32::MAX - 200 {
            enter(script, u32::MAX - 150);
        }
        chapter(script);
    }
}

/// The ends of the margin: no row at all, then all rows alike.
pub fn all_alike(script: &mut Script) {
    damage::write(script);
    let named = entry(&mut script.random);
    acknowledge_all(script, &[named]);
}

/// Two entries that differ only by where a blank stands: together they would be decided.
pub fn all_twins(script: &mut Script) {
    acknowledge_all(script, &TWINS);
}

fn acknowledge_all(script: &mut Script, entries: &[Entry]) {
    for seat in script.seats() {
        let entry = script.random.pick(entries);
        script.send(&Message::Acknowledgement { head: script.head_of(seat), entry }, &[]);
    }
}

fn chapter(script: &mut Script) {
    match script.random.below(20) {
        0..=6 => lead(script),
        7..=10 => follow(script),
        11..=13 => acknowledge(script),
        14 => (0..10).for_each(|_| damage::write(script)),
        15 => (0..10).for_each(|_| replay(script)),
        16 => refused_entering(script),
        _ => (0..10).for_each(|_| any_message(script)),
    }
}

fn enter(script: &mut Script, view: u32) {
    script.send(&Message::Enter { view }, &[]);
}

fn refused_entering(script: &mut Script) {
    let view = script.replica.view;
    for view in [0, view, view - 1, script.random.below(u64::from(view)) as u32] {
        enter(script, view);
    }
}

/// The next view that this seat leads, or the highest where none is left.
fn next_led_by(replica: &Replica, seat: u8) -> u32 {
    let (n, next) = (u64::from(replica.n), u64::from(replica.view) + 1);
    let led = next + (n + u64::from(seat) - next % n) % n;
    led.min(u64::from(u32::MAX)) as u32
}

/// This seat leads a view: votes, confirmations, and its proposal back to itself.
fn lead(script: &mut Script) {
    let Replica { n, f, seat, .. } = script.replica;
    let view = next_led_by(&script.replica, seat);
    enter(script, view);
    let scenario = Scenario::new(&mut script.random, view);
    let bad = script.random.pick(&[0, 10, 30]);
    let mut more = 3;
    for seat in script.seats() {
        if script.random.chance(bad) {
            let vote = scenario.bad_vote(&mut script.random, n, f);
            script.send(&Message::Vote(Row { head: script.head_of(seat), vote }), &[]);
        }
        let vote = scenario.vote(&mut script.random, n, f);
        script.send(&Message::Vote(Row { head: script.head_of(seat), vote }), &[]);
        sprinkle(script);
        more -= usize::from(script.replica.stage != COLLECTING);
        if more == 0 {
            break;
        }
    }
    if script.random.chance(80) {
        confirm(script);
    }
}

/// Confirmations of the chosen entry, and a few after it is proposed.
fn confirm(script: &mut Script) {
    let mut more = 3;
    for seat in script.seats() {
        let named = if script.random.chance(90) { script.replica.chosen } else { entry(&mut script.random) };
        let message = Message::Confirmation { head: script.head_of(seat), entry: named };
        let answer = script.send(&message, &[]);
        if script.random.chance(10) {
            twisted(script, message);
        }
        if let Some(proposal @ Message::Proposal { .. }) = answer.sent {
            script.send(&proposal, &[]);
        }
        more -= usize::from(script.replica.stage != ASKING);
        if more == 0 {
            break;
        }
    }
}

/// Another seat leads a view: its requests and proposals.
fn follow(script: &mut Script) {
    let view = script.replica.view.saturating_add(script.random.pick(&[1, 1, 1, 2, 7, 100]));
    enter(script, view);
    for _ in 0..script.random.between(1, 12) {
        requests::send_fitting(script);
    }
    let Replica { n, f, view, .. } = script.replica;
    for _ in 0..script.random.between(1, 3) {
        let mask = good_mask(&mut script.random, n, f, view);
        let proposal =
            Message::Proposal { head: script.head_of(leader(view, n)), entry: entry(&mut script.random), mask };
        twisted(script, proposal);
        let answer = script.send(&proposal, &[]);
        if let Some(acknowledgement) = answer.sent {
            script.send(&acknowledgement, &[]);
        }
    }
}

/// Acknowledgements of all seats, mostly the same; often of a view that is not the current one.
fn acknowledge(script: &mut Script) {
    let view = script.replica.view;
    let seen = script.replica.acknowledged.iter().map(|row| row.view).max().unwrap_or(0);
    let view =
        script.random.pick(&[view, view, view.saturating_add(1), seen.saturating_add(1), view.saturating_sub(1)]);
    let entries = few_entries(&mut script.random);
    let other = script.random.pick(&[0, 0, 2, 20, 100]);
    let mut seats = script.seats();
    if script.random.chance(40) {
        seats.truncate(script.random.index(seats.len()));
    }
    for seat in seats {
        let named = if script.random.chance(other) { script.random.pick(&entries) } else { entries[0] };
        let mut head = script.head_of(seat);
        head.view = view;
        let message = Message::Acknowledgement { head, entry: named };
        script.send(&message, &[]);
        if script.random.chance(5) {
            twisted(script, message);
        }
    }
}
