//! Messages: what a line says, what an event brings and what an answer sends.

use crate::entry::Entry;
use crate::vote::Vote;

/// The fields that P, A, V, Q and C begin with.
#[derive(Clone, Copy, Debug, PartialEq, Eq)]
pub struct Head {
    pub seat: u8,
    pub verified: bool,
    pub view: u32,
}

#[derive(Clone, Copy, Debug, PartialEq, Eq)]
pub enum Message {
    Start,
    Enter { view: u32 },
    Proposal { head: Head, entry: Entry, mask: u64 },
    Acknowledgement { head: Head, entry: Entry },
    Vote(Row),
    Request { head: Head, entry: Entry, count: u8 },
    Confirmation { head: Head, entry: Entry },
}

impl Message {
    /// The place of the kind in the order S, E, P, A, V, Q, C.
    pub fn kind(&self) -> usize {
        match self {
            Message::Start => 0,
            Message::Enter { .. } => 1,
            Message::Proposal { .. } => 2,
            Message::Acknowledgement { .. } => 3,
            Message::Vote(_) => 4,
            Message::Request { .. } => 5,
            Message::Confirmation { .. } => 6,
        }
    }

    /// Seat, mark and view, where the kind has them.
    pub fn head(&self) -> Option<&Head> {
        match self {
            Message::Start | Message::Enter { .. } => None,
            Message::Proposal { head, .. } | Message::Acknowledgement { head, .. } => Some(head),
            Message::Request { head, .. } | Message::Confirmation { head, .. } => Some(head),
            Message::Vote(row) => Some(&row.head),
        }
    }

    /// The same, to be changed.
    pub fn head_mut(&mut self) -> Option<&mut Head> {
        match self {
            Message::Start | Message::Enter { .. } => None,
            Message::Proposal { head, .. } | Message::Acknowledgement { head, .. } => Some(head),
            Message::Request { head, .. } | Message::Confirmation { head, .. } => Some(head),
            Message::Vote(row) => Some(&mut row.head),
        }
    }
}

/// A V line: a message of its own, or one row of a request.
#[derive(Clone, Copy, Debug, PartialEq, Eq)]
pub struct Row {
    pub head: Head,
    pub vote: Vote,
}

impl Row {
    pub const BLANK: Row = Row { head: Head { seat: 0, verified: false, view: 0 }, vote: Vote::NIL };
}
