//! Lines: the reader and the writer of messages, and the reader of `trace`'s H line.

use crate::entry::Entry;
use crate::fields::{put_decimal, put_entry, put_mark, put_mask, Fields};
use crate::message::{Head, Message, Row};
use crate::vote::Vote;

/// The longest line with its LF.
pub const LONGEST: usize = 81;

const LARGEST_SEAT: u32 = 99;
const LARGEST_COUNT: u32 = 64;

/// The message of one line, its LF included; `None` is 19.
pub fn read(line: &[u8]) -> Option<Message> {
    let mut fields = Fields::new(line);
    let message = match fields.byte()? {
        b'S' => Message::Start,
        b'E' => {
            fields.tab()?;
            Message::Enter { view: fields.decimal(u32::MAX)? }
        }
        b'P' => {
            let (head, entry) = head_and_entry(&mut fields)?;
            fields.tab()?;
            Message::Proposal { head, entry, mask: fields.mask()? }
        }
        b'A' => {
            let (head, entry) = head_and_entry(&mut fields)?;
            Message::Acknowledgement { head, entry }
        }
        b'V' => return vote_fields(&mut fields).map(Message::Vote),
        b'Q' => {
            let (head, entry) = head_and_entry(&mut fields)?;
            fields.tab()?;
            Message::Request { head, entry, count: fields.decimal(LARGEST_COUNT)? as u8 }
        }
        b'C' => {
            let (head, entry) = head_and_entry(&mut fields)?;
            Message::Confirmation { head, entry }
        }
        _ => return None,
    };
    fields.end()?;
    Some(message)
}

/// A row of a request: the line has to be a V line.
pub fn read_row(line: &[u8]) -> Option<Row> {
    let mut fields = Fields::new(line);
    if fields.byte()? != b'V' {
        return None;
    }
    vote_fields(&mut fields)
}

/// The tab, seat, mark, view and tab after the kind.
fn head(fields: &mut Fields) -> Option<Head> {
    fields.tab()?;
    let seat = fields.decimal(LARGEST_SEAT)? as u8;
    fields.tab()?;
    let verified = fields.mark()?;
    fields.tab()?;
    let view = fields.decimal(u32::MAX)?;
    fields.tab()?;
    Some(Head { seat, verified, view })
}

fn head_and_entry(fields: &mut Fields) -> Option<(Head, Entry)> {
    Some((head(fields)?, fields.entry()?))
}

/// What follows the V, to the end of the line: five fields in all for a nil vote, else eight.
fn vote_fields(fields: &mut Fields) -> Option<Row> {
    let head = head(fields)?;
    if fields.rest_is(b"-\n") {
        return Some(Row { head, vote: Vote::NIL });
    }
    let view = fields.decimal(u32::MAX)?;
    fields.tab()?;
    let entry = fields.entry()?;
    fields.tab()?;
    let mask = fields.mask()?;
    fields.tab()?;
    let verified = fields.mark()?;
    fields.end()?;
    Some(Row { head, vote: Vote { cast: true, view, entry, mask, verified } })
}

/// What `trace`'s first line asks setup for.
pub struct Opening {
    pub n: u8,
    pub f: u8,
    pub seat: u8,
    pub own: Entry,
}

/// The line `H` n f seat entry, where f may be `-`, meaning 1.
pub fn read_opening(line: &[u8]) -> Option<Opening> {
    let mut fields = Fields::new(line.strip_prefix(b"H\t")?);
    let n = fields.decimal(LARGEST_SEAT)? as u8;
    fields.tab()?;
    let f = if fields.take_dash() { 1 } else { fields.decimal(LARGEST_SEAT)? as u8 };
    fields.tab()?;
    let seat = fields.decimal(LARGEST_SEAT)? as u8;
    fields.tab()?;
    let own = fields.entry()?;
    fields.end()?;
    Some(Opening { n, f, seat, own })
}

/// The writer into a lent buffer: 0, 20 or 21, and the length of the line with its LF.
pub fn write(message: &Message, buffer: &mut [u8]) -> (u8, usize) {
    if !can_be_written(message) {
        return (21, 0);
    }
    let mut line = Vec::with_capacity(LONGEST);
    put(&mut line, message);
    line.push(b'\n');
    match buffer.get_mut(..line.len()) {
        Some(place) => {
            place.copy_from_slice(&line);
            (0, line.len())
        }
        None => (20, 0),
    }
}

/// Whether seat and count, where the kind has them, are such that a line can hold them.
fn can_be_written(message: &Message) -> bool {
    let seat = message.head().map_or(0, |head| head.seat);
    let count = if let Message::Request { count, .. } = message { *count } else { 0 };
    u32::from(seat) <= LARGEST_SEAT && u32::from(count) <= LARGEST_COUNT
}

/// Writes the message's fields, without the LF.
pub fn put(out: &mut Vec<u8>, message: &Message) {
    match message {
        Message::Start => out.push(b'S'),
        Message::Enter { view } => {
            out.extend_from_slice(b"E\t");
            put_decimal(out, u64::from(*view));
        }
        Message::Proposal { head, entry, mask } => {
            put_head_and_entry(out, b'P', head, entry);
            out.push(b'\t');
            put_mask(out, *mask);
        }
        Message::Acknowledgement { head, entry } => put_head_and_entry(out, b'A', head, entry),
        Message::Vote(row) => put_row(out, row.head, &row.vote),
        Message::Request { head, entry, count } => {
            put_head_and_entry(out, b'Q', head, entry);
            out.push(b'\t');
            put_decimal(out, u64::from(*count));
        }
        Message::Confirmation { head, entry } => put_head_and_entry(out, b'C', head, entry),
    }
}

/// Writes a V line's fields, without the LF.
pub fn put_row(out: &mut Vec<u8>, head: Head, vote: &Vote) {
    put_head(out, b'V', &head);
    if !vote.cast {
        out.push(b'-');
        return;
    }
    put_decimal(out, u64::from(vote.view));
    out.push(b'\t');
    put_entry(out, &vote.entry);
    out.push(b'\t');
    put_mask(out, vote.mask);
    out.push(b'\t');
    put_mark(out, vote.verified);
}

fn put_head_and_entry(out: &mut Vec<u8>, kind: u8, head: &Head, entry: &Entry) {
    put_head(out, kind, head);
    put_entry(out, entry);
}

fn put_head(out: &mut Vec<u8>, kind: u8, head: &Head) {
    out.extend_from_slice(&[kind, b'\t']);
    put_decimal(out, u64::from(head.seat));
    out.push(b'\t');
    put_mark(out, head.verified);
    out.push(b'\t');
    put_decimal(out, u64::from(head.view));
    out.push(b'\t');
}
