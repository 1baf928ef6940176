//! The replica: what one seat remembers, its setup and its margin.

use crate::entry::{well_formed, Entry};
use crate::message::Message;
use crate::seats::{leader, seats_below, size_number, ROOM};
use crate::vote::Vote;

pub const IDLE: u8 = 0;
pub const COLLECTING: u8 = 1;
pub const ASKING: u8 = 2;
pub const PROPOSED: u8 = 3;

/// An acknowledgement row; empty where the view is 0.
#[derive(Clone, Copy, Debug, PartialEq, Eq)]
pub struct Acknowledged {
    pub view: u32,
    pub entry: Entry,
}

/// A leader's vote row for one seat.
#[derive(Clone, Copy, Debug, PartialEq, Eq)]
pub struct VoteRow {
    pub filled: bool,
    pub vote: Vote,
}

impl VoteRow {
    pub const EMPTY: VoteRow = VoteRow { filled: false, vote: Vote::NIL };
}

/// The fields are open: a replica may be built by hand with any values in it.
#[derive(Clone, Debug, PartialEq, Eq)]
pub struct Replica {
    pub n: u8,
    pub f: u8,
    pub seat: u8,
    pub stage: u8,
    pub decided: bool,
    pub view: u32,
    pub own: Entry,
    pub vote: Vote,
    pub decision: Entry,
    pub chosen: Entry,
    pub confirmed: u64,
    pub acknowledged: [Acknowledged; ROOM],
    pub votes: [VoteRow; ROOM],
}

/// What an event gives back beside the replica. A request that is sent has the replica's `filled_rows`.
#[derive(Clone, Copy, Debug, PartialEq, Eq)]
pub struct Answer {
    pub number: u8,
    pub decided: Option<Entry>,
    pub sent: Option<Message>,
}

impl Answer {
    pub fn refused(number: u8) -> Answer {
        Answer { number, decided: None, sent: None }
    }
}

impl Replica {
    pub const BLANK: Replica = Replica {
        n: 0,
        f: 0,
        seat: 0,
        stage: IDLE,
        decided: false,
        view: 0,
        own: [0; 16],
        vote: Vote::NIL,
        decision: [0; 16],
        chosen: [0; 16],
        confirmed: 0,
        acknowledged: [Acknowledged { view: 0, entry: [0; 16] }; ROOM],
        votes: [VoteRow::EMPTY; ROOM],
    };

    /// A fresh replica in view 1, or the number that refuses it.
    pub fn setup(n: u8, f: u8, seat: u8, own: Entry) -> Result<Replica, u8> {
        let replica = Replica { n, f, seat, own, view: 1, ..Replica::BLANK };
        match replica.setup_number() {
            0 => Ok(replica),
            number => Err(number),
        }
    }

    /// The number that setup would give this replica's n, f, seat and own entry.
    pub fn setup_number(&self) -> u8 {
        match size_number(self.n, self.f) {
            0 if self.seat >= self.n => 3,
            0 if !well_formed(&self.own) => 4,
            number => number,
        }
    }

    pub fn quorum(&self) -> usize {
        usize::from(self.n - self.f)
    }

    pub fn leads(&self, seat: u8, view: u32) -> bool {
        seat == leader(view, self.n)
    }

    /// The seats below n that confirmed the chosen entry.
    pub fn confirmers(&self) -> u64 {
        self.confirmed & seats_below(self.n)
    }

    /// The seat's vote, where its row is filled with one that is valid for the current view.
    pub fn filled_row(&self, seat: u8) -> Option<&Vote> {
        let row = &self.votes[usize::from(seat)];
        (row.filled && row.vote.is_valid(self.n, self.f, self.view)).then_some(&row.vote)
    }

    /// All filled rows in seat order.
    pub fn filled_rows(&self) -> impl Iterator<Item = (u8, &Vote)> + Clone {
        (0..self.n).filter_map(|seat| self.filled_row(seat).map(|vote| (seat, vote)))
    }

    /// How many seats' rows share this view and entry.
    pub fn sharing(&self, row: &Acknowledged) -> usize {
        self.acknowledged[..usize::from(self.n)].iter().filter(|other| *other == row).count()
    }

    /// "the most acknowledgement rows that share one view and entry (0 if none are filled), minus (n − f)"
    pub fn margin(&self) -> i32 {
        if self.setup_number() != 0 {
            return 0;
        }
        self.most_sharing() as i32 - self.quorum() as i32
    }

    /// Takes the rows group by group, until too few are left for a larger group.
    fn most_sharing(&self) -> u32 {
        let rows = &self.acknowledged[..usize::from(self.n)];
        let mut left = bits(rows, |row| row.view != 0);
        let mut most = 0;
        while left.count_ones() > most {
            let first = &rows[left.trailing_zeros() as usize];
            let group = left & bits(rows, |row| row == first);
            most = most.max(group.count_ones());
            left &= !group;
        }
        most
    }
}

/// The mask of the rows for which `holds` does.
fn bits(rows: &[Acknowledged], holds: impl Fn(&Acknowledged) -> bool) -> u64 {
    rows.iter().rev().fold(0, |mask, row| mask << 1 | u64::from(holds(row)))
}
