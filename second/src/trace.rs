//! The program `trace`: an H line and events in, one line per event out.

use std::io::{self, Read, Write};

use crate::fields::{put_decimal, put_entry};
use crate::lines::{put, put_row, read, read_opening, read_row, Opening};
use crate::message::{Head, Message, Row};
use crate::replica::{Answer, Replica};
use crate::seats::ROOM;
use crate::source::Source;

const OUTPUT: usize = 1 << 16;

/// Looks on while a trace runs. An opening or event of `None` is one with 19.
pub trait Watch {
    fn opened(&mut self, _opening: Option<&Opening>, _number: u8) {}
    fn answered(
        &mut self,
        _replica: &Replica,
        _event: Option<&Message>,
        _rows: &[Row],
        _answer: &Answer,
        _margin: i32,
    ) {
    }
}

pub struct Unwatched;

impl Watch for Unwatched {}

/// Runs the trace and gives the number of its events.
pub fn trace<R: Read, W: Write, T: Watch>(input: R, output: W, watch: &mut T) -> io::Result<u64> {
    let mut source = Source::new(input);
    let mut printer = Printer::new(output);
    let opening = source.next_line()?.and_then(read_opening);
    let begun = open(opening.as_ref());
    watch.opened(opening.as_ref(), begun.as_ref().err().copied().unwrap_or(0));
    let mut replica = match begun {
        Ok(replica) => replica,
        Err(number) => {
            printer.print_bad_opening(number);
            printer.flush()?;
            return Ok(0);
        }
    };
    let mut table = [Row::BLANK; ROOM];
    let mut margin = replica.margin();
    while let Some((event, rows)) = next_event(&mut source, &mut table)? {
        let answer = match &event {
            Some(message) => replica.step(message, rows),
            None => Answer::refused(19),
        };
        // Only an acknowledgement that is taken changes the rows that the margin counts.
        if answer.number == 0 && matches!(event, Some(Message::Acknowledgement { .. })) {
            margin = replica.margin();
        }
        watch.answered(&replica, event.as_ref(), rows, &answer, margin);
        printer.print(&replica, &answer, margin)?;
    }
    printer.flush()?;
    Ok(printer.events)
}

/// The replica of the H line, or the number of a bad one.
fn open(opening: Option<&Opening>) -> Result<Replica, u8> {
    opening.map_or(Err(19), |line| Replica::setup(line.n, line.f, line.seat, line.own))
}

/// An event, `None` for one with 19, and its rows.
pub type Event<'a> = (Option<Message>, &'a [Row]);

/// The next event of an input, a request with its rows.
pub fn next_event<'a, R: Read>(source: &mut Source<R>, table: &'a mut [Row; ROOM]) -> io::Result<Option<Event<'a>>> {
    let Some(line) = source.next_line()? else {
        return Ok(None);
    };
    let message = read(line);
    let Some(Message::Request { count, .. }) = message else {
        return Ok(Some((message, &[])));
    };
    let rows = &mut table[..usize::from(count)];
    let whole = read_rows(source, rows)?;
    Ok(Some((message.filter(|_| whole), rows)))
}

/// Takes a request's rows from the next lines, whatever these are; false where one is missing or is no V line.
fn read_rows<R: Read>(source: &mut Source<R>, rows: &mut [Row]) -> io::Result<bool> {
    let mut whole = true;
    for place in rows {
        match source.next_line()?.and_then(read_row) {
            Some(row) => *place = row,
            None => whole = false,
        }
    }
    Ok(whole)
}

/// The output, gathered into large writes.
struct Printer<W> {
    output: W,
    buffer: Vec<u8>,
    events: u64,
}

impl<W: Write> Printer<W> {
    fn new(output: W) -> Printer<W> {
        Printer { output, buffer: Vec::with_capacity(2 * OUTPUT), events: 0 }
    }

    fn print_bad_opening(&mut self, number: u8) {
        self.buffer.extend_from_slice(b"0\t");
        put_decimal(&mut self.buffer, u64::from(number));
        self.buffer.push(b'\n');
    }

    fn print(&mut self, replica: &Replica, answer: &Answer, margin: i32) -> io::Result<()> {
        self.events += 1;
        put_event(&mut self.buffer, self.events, replica, answer, margin);
        if self.buffer.len() >= OUTPUT {
            self.flush()?;
        }
        Ok(())
    }

    fn flush(&mut self) -> io::Result<()> {
        self.output.write_all(&self.buffer)?;
        self.buffer.clear();
        self.output.flush()
    }
}

/// What is printed of an event: its line, and the rows of a request sent.
pub fn put_event(out: &mut Vec<u8>, event: u64, replica: &Replica, answer: &Answer, margin: i32) {
    put_decimal(out, event);
    out.push(b'\t');
    put_decimal(out, u64::from(answer.number));
    out.push(b'\t');
    match &answer.decided {
        Some(entry) => put_entry(out, entry),
        None => out.push(b'-'),
    }
    out.extend_from_slice(if margin < 0 { b"\t-" } else { b"\t" });
    put_decimal(out, u64::from(margin.unsigned_abs()));
    out.push(b'\t');
    match &answer.sent {
        Some(message) => put(out, message),
        None => out.push(b'-'),
    }
    out.push(b'\n');
    if let Some(Message::Request { head, .. }) = answer.sent {
        put_rows(out, replica, head);
    }
}

/// The V lines that follow a request sent: all filled rows in seat order.
fn put_rows(out: &mut Vec<u8>, replica: &Replica, head: Head) {
    for (seat, vote) in replica.filled_rows() {
        put_row(out, Head { seat, ..head }, vote);
        out.push(b'\n');
    }
}
