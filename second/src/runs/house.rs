//! A whole house of replicas that send to each other in random order, as one seat sees it.

use std::rc::Rc;

use crate::message::{Head, Message, Row};
use crate::replica::Replica;
use crate::runs::cells::Cell;
use crate::runs::noise;
use crate::runs::script::Script;
use crate::seats::leader;
use crate::values;

/// A message under way.
struct Letter {
    to: u8,
    message: Message,
    rows: Rc<[Row]>,
}

pub struct House {
    /// All seats; the watched one is kept by the script instead.
    replicas: Vec<Replica>,
    faulty: u64,
    under_way: Vec<Letter>,
}

impl House {
    pub fn new(script: &mut Script) -> House {
        let Replica { n, f, seat: watched, .. } = script.replica;
        let entries = values::few_entries(&mut script.random);
        let mut fresh = |seat| Replica { n, f, seat, own: script.random.pick(&entries), view: 1, ..Replica::BLANK };
        let replicas = (0..n).map(&mut fresh).collect();
        let most = script.random.between(0, u64::from(f)) as usize;
        let faulty = script.random.seats(n, most) & !(1 << watched);
        House { replicas, faulty, under_way: Vec::new() }
    }

    /// Plays view after view until the script has this many events.
    pub fn play(&mut self, script: &mut Script, events: usize) {
        self.start(script);
        while script.events() < events {
            self.change_view(script);
            self.deliver_most(script);
        }
    }

    fn start(&mut self, script: &mut Script) {
        if self.is_faulty(1) {
            self.propose_twice(script, 1);
        } else {
            self.hand(script, 1, &Message::Start, &[]);
        }
        self.deliver_most(script);
    }

    /// All seats enter a later view, often one that the watched seat leads.
    fn change_view(&mut self, script: &mut Script) {
        let Replica { n, seat, view, .. } = script.replica;
        let mut next = view + script.random.pick(&[1, 1, 1, 2, 5]);
        if script.random.chance(50) {
            next += (u32::from(n) + u32::from(seat) - next % u32::from(n)) % u32::from(n);
        }
        for entering in script.seats() {
            self.hand(script, entering, &Message::Enter { view: next }, &[]);
            if script.random.chance(5) {
                self.deliver(script);
            }
        }
        let leading = leader(next, n);
        if self.is_faulty(leading) && script.random.chance(70) {
            self.propose_twice(script, next);
        }
    }

    /// A faulty leader: one entry to some seats and another to the rest.
    fn propose_twice(&mut self, script: &mut Script, view: u32) {
        let Replica { n, f, .. } = script.replica;
        let head = Head { seat: leader(view, n), verified: true, view };
        let pair = [values::entry(&mut script.random), values::entry(&mut script.random)];
        let share = script.random.pick(&[20, 50, 80]);
        script.cells.add_if(pair[0] != pair[1], Cell::ProposedTwice);
        for to in 0..n {
            let entry = pair[usize::from(script.random.chance(share))];
            let mask = values::good_mask(&mut script.random, n, f, view);
            self.post(to, Some(Message::Proposal { head, entry, mask }));
        }
    }

    /// Delivers what is under way, now and then only a part of it; what is left arrives late or never.
    fn deliver_most(&mut self, script: &mut Script) {
        let keep = if script.random.chance(25) { script.random.index(self.under_way.len() + 1) } else { 0 };
        while self.under_way.len() > keep {
            self.deliver(script);
            noise::sprinkle(script);
        }
        self.under_way.truncate(200);
    }

    /// Delivers one letter, sometimes twice, sometimes not at all.
    fn deliver(&mut self, script: &mut Script) {
        if self.under_way.is_empty() {
            return;
        }
        let which = script.random.index(self.under_way.len());
        let letter = self.under_way.swap_remove(which);
        if script.random.chance(2) {
            return;
        }
        self.hand(script, letter.to, &letter.message, &letter.rows);
        if script.random.chance(2) {
            self.hand(script, letter.to, &letter.message, &letter.rows);
        }
    }

    /// Gives an event to a seat and posts what it sends.
    fn hand(&mut self, script: &mut Script, seat: u8, message: &Message, rows: &[Row]) {
        let (answer, sender) = if seat == script.replica.seat {
            (script.send(message, rows), &script.replica)
        } else {
            let replica = &mut self.replicas[usize::from(seat)];
            (replica.step(message, rows), &*replica)
        };
        match answer.sent {
            Some(Message::Request { head, .. }) => {
                let rows: Rc<[Row]> = rows_of(sender, head).collect();
                self.post_all(answer.sent, &rows);
            }
            Some(Message::Proposal { .. }) => self.post_all(answer.sent, &Rc::from([])),
            Some(Message::Vote(row)) => self.post_vote(script, row),
            Some(Message::Confirmation { head, .. }) => self.post(self.leader(head.view), answer.sent),
            // Other seats' acknowledgement rows change nothing that they send: only the watched seat gets these.
            _ => self.post(script.replica.seat, answer.sent),
        }
    }

    /// A faulty seat may vote for what it likes.
    fn post_vote(&mut self, script: &mut Script, mut row: Row) {
        if self.is_faulty(row.head.seat) && row.vote.cast && script.random.chance(50) {
            row.vote.entry = values::entry(&mut script.random);
        }
        self.post(self.leader(row.head.view), Some(Message::Vote(row)));
    }

    fn post_all(&mut self, message: Option<Message>, rows: &Rc<[Row]>) {
        let letters = message.into_iter().flat_map(|message| {
            (0..self.replicas.len()).map(move |to| Letter { to: to as u8, message, rows: Rc::clone(rows) })
        });
        self.under_way.extend(letters);
    }

    fn post(&mut self, to: u8, message: Option<Message>) {
        self.under_way.extend(message.map(|message| Letter { to, message, rows: Rc::from([]) }));
    }

    fn leader(&self, view: u32) -> u8 {
        leader(view, self.replicas.len() as u8)
    }

    fn is_faulty(&self, seat: u8) -> bool {
        self.faulty >> seat & 1 == 1
    }
}

/// The rows that go with a request sent.
fn rows_of(sender: &Replica, head: Head) -> impl Iterator<Item = Row> + '_ {
    sender.filled_rows().map(move |(seat, vote)| Row { head: Head { seat, ..head }, vote: *vote })
}
