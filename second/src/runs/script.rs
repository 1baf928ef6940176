//! The input of one run as it is written, with the watched seat's replica beside it.

use crate::fields::{put_decimal, put_entry};
use crate::lines::{put, put_row};
use crate::message::{Head, Message, Row};
use crate::random::Random;
use crate::replica::{Answer, Replica};
use crate::runs::cells::{Cell, Cells};

pub struct Script<'a> {
    pub random: Random,
    pub cells: &'a mut Cells,
    /// The watched seat, after all events written so far.
    pub replica: Replica,
    pub bytes: Vec<u8>,
    events: Vec<usize>,
}

impl<'a> Script<'a> {
    /// Begins with the H line of a fresh replica; f is written as a dash where asked.
    pub fn new(random: Random, replica: Replica, dash: bool, cells: &'a mut Cells) -> Script<'a> {
        let mut bytes = Vec::new();
        put_opening(&mut bytes, &replica, dash);
        cells.add_if(dash, Cell::DashForF);
        Script { random, cells, replica, bytes, events: Vec::new() }
    }

    pub fn events(&self) -> usize {
        self.events.len()
    }

    /// Writes an event and gives the model's answer; a request's count is that of its rows.
    pub fn send(&mut self, message: &Message, rows: &[Row]) -> Answer {
        let bytes = event_lines(message, rows);
        self.write(&bytes);
        self.replica.step(message, rows)
    }

    /// Writes lines that are one event with 19.
    pub fn write(&mut self, lines: &[u8]) {
        self.events.push(self.bytes.len());
        self.bytes.extend_from_slice(lines);
    }

    /// The lines of an earlier event; none where there is none yet.
    pub fn earlier(&mut self) -> &[u8] {
        if self.events.is_empty() {
            return &[];
        }
        let which = self.random.index(self.events.len());
        let end = self.events.get(which + 1).copied().unwrap_or(self.bytes.len());
        &self.bytes[self.events[which]..end]
    }

    /// A head of the current view, from this seat, with mark `+`.
    pub fn head_of(&self, seat: u8) -> Head {
        Head { seat, verified: true, view: self.replica.view }
    }

    /// All seats in random order.
    pub fn seats(&mut self) -> Vec<u8> {
        let mut seats: Vec<u8> = (0..self.replica.n).collect();
        self.random.shuffle(&mut seats);
        seats
    }
}

pub fn put_opening(out: &mut Vec<u8>, replica: &Replica, dash: bool) {
    out.extend_from_slice(b"H\t");
    put_decimal(out, u64::from(replica.n));
    out.push(b'\t');
    if dash {
        out.push(b'-');
    } else {
        put_decimal(out, u64::from(replica.f));
    }
    out.push(b'\t');
    put_decimal(out, u64::from(replica.seat));
    out.push(b'\t');
    put_entry(out, &replica.own);
    out.push(b'\n');
}

/// An event as lines; a request with its rows and their count.
pub fn event_lines(message: &Message, rows: &[Row]) -> Vec<u8> {
    let mut bytes = Vec::new();
    let message = match *message {
        Message::Request { head, entry, .. } => Message::Request { head, entry, count: rows.len() as u8 },
        other => other,
    };
    put(&mut bytes, &message);
    bytes.push(b'\n');
    for row in rows {
        put_row(&mut bytes, row.head, &row.vote);
        bytes.push(b'\n');
    }
    bytes
}
