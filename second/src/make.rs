//! The command `make`: traces for the benchmark, the same every time.

use std::io::{self, BufWriter, Write};

use crate::entry::Entry;
use crate::message::{Head, Message, Row};
use crate::replica::Replica;
use crate::runs::script::{event_lines, put_opening};
use crate::seats::{largest_f, leader};
use crate::vote::Vote;

pub const KINDS: [&str; 4] = ["n4", "n9", "n64", "worst"];

const ENTRY: Entry = *b"A1          \0\0\0\x01";

/// The watched seat.
const SEAT: u8 = 2;

/// Prints the trace of a kind with this many lines, the H line included.
pub fn print(kind: &str, lines: u64) -> Result<(), String> {
    let mut output = BufWriter::new(io::stdout().lock());
    write(kind, lines, &mut output)
}

/// Writes the trace of a kind with this many lines.
pub fn write(kind: &str, lines: u64, output: &mut impl Write) -> Result<(), String> {
    let n = match kind {
        "n4" => 4,
        "n9" => 9,
        "n64" | "worst" => 64,
        _ => return Err(format!("{kind} is none of {}", KINDS.join(", "))),
    };
    let mut traffic = Traffic { n, f: largest_f(n), left: lines, output };
    let written = if kind == "worst" { traffic.worst() } else { traffic.busy() };
    written.and_then(|()| traffic.output.flush()).map_err(|error| error.to_string())
}

/// A trace as it is written.
struct Traffic<'a, W> {
    n: u8,
    f: u8,
    left: u64,
    output: &'a mut W,
}

impl<W: Write> Traffic<'_, W> {
    /// View after view of honest traffic for one entry; the watched seat leads every other view.
    fn busy(&mut self) -> io::Result<()> {
        self.open()?;
        let mut vote = Vote { cast: true, view: 1, entry: ENTRY, mask: 0, verified: true };
        self.propose(&vote)?;
        for turn in 0u32.. {
            if self.left == 0 {
                break;
            }
            let view = self.next_view(vote.view, turn % 2 == 0);
            self.event(&Message::Enter { view }, &[])?;
            let mask = (0..=self.f).fold(0, |mask, step| mask | 1 << self.seat_after(turn, step));
            if leader(view, self.n) == SEAT {
                self.lead(view, &vote, turn)?;
            } else {
                let rows: Vec<Row> = (0..self.n - self.f).map(|seat| Row { head: head(seat, view), vote }).collect();
                let asking = head(leader(view, self.n), view);
                self.event(&Message::Request { head: asking, entry: ENTRY, count: 0 }, &rows)?;
            }
            vote = Vote { view, mask, ..vote };
            self.propose(&vote)?;
        }
        Ok(())
    }

    /// The next view, or the next after it that the watched seat leads.
    fn next_view(&self, view: u32, led: bool) -> u32 {
        let n = u32::from(self.n);
        let next = view + 1;
        next + if led { (n + u32::from(SEAT) - next % n) % n } else { 0 }
    }

    /// Another order of seats in every turn.
    fn seat_after(&self, turn: u32, step: u8) -> u8 {
        leader(turn.wrapping_add(u32::from(step)), self.n)
    }

    /// The watched seat leads: just enough votes and confirmations, and one late one of each.
    fn lead(&mut self, view: u32, vote: &Vote, turn: u32) -> io::Result<()> {
        for step in 0..=self.n - self.f {
            let seat = self.seat_after(turn, step);
            self.event(&Message::Vote(Row { head: head(seat, view), vote: *vote }), &[])?;
        }
        for step in 0..self.f + 2 {
            let seat = self.seat_after(turn, step);
            self.event(&Message::Confirmation { head: head(seat, view), entry: ENTRY }, &[])?;
        }
        Ok(())
    }

    /// The proposal that this vote is for, and the acknowledgements of all seats; one comes again.
    fn propose(&mut self, vote: &Vote) -> io::Result<()> {
        let proposing = head(leader(vote.view, self.n), vote.view);
        self.event(&Message::Proposal { head: proposing, entry: ENTRY, mask: vote.mask }, &[])?;
        for seat in (0..self.n).chain([0]) {
            self.event(&Message::Acknowledgement { head: head(seat, vote.view), entry: ENTRY }, &[])?;
        }
        Ok(())
    }

    /// All acknowledgement rows different, then nothing but refusals.
    fn worst(&mut self) -> io::Result<()> {
        self.open()?;
        while self.left > 0 {
            for seat in 0..self.n {
                let mut entry = ENTRY;
                entry[15] = seat;
                self.event(&Message::Acknowledgement { head: head(seat, 1), entry }, &[])?;
            }
        }
        Ok(())
    }

    fn open(&mut self) -> io::Result<()> {
        let replica = Replica { n: self.n, f: self.f, seat: SEAT, own: ENTRY, ..Replica::BLANK };
        let mut line = Vec::new();
        put_opening(&mut line, &replica, false);
        self.lines(&line, 1)
    }

    /// Writes an event; one that no longer fits becomes as many repeated acknowledgements as do.
    fn event(&mut self, message: &Message, rows: &[Row]) -> io::Result<()> {
        let count = 1 + rows.len() as u64;
        if count <= self.left {
            return self.lines(&event_lines(message, rows), count);
        }
        let filler = event_lines(&Message::Acknowledgement { head: head(0, 1), entry: ENTRY }, &[]);
        (0..self.left).try_for_each(|_| self.lines(&filler, 1))
    }

    fn lines(&mut self, lines: &[u8], count: u64) -> io::Result<()> {
        self.left = self.left.saturating_sub(count);
        self.output.write_all(lines)
    }
}

fn head(seat: u8, view: u32) -> Head {
    Head { seat, verified: true, view }
}
