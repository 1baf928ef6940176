//! The seven events. Each asks for its refusals in the order of their numbers, then changes the replica in place.

use crate::entry::{well_formed, Entry};
use crate::message::{Head, Message, Row};
use crate::replica::{Acknowledged, Answer, Replica, VoteRow, ASKING, COLLECTING, IDLE, PROPOSED};
use crate::selection::{rows_sound, select, votes_of, Choice};
use crate::vote::{certificate_good, Vote};

type Taken = Result<Answer, u8>;

fn refuse(number: u8, applies: bool) -> Result<(), u8> {
    if applies {
        Err(number)
    } else {
        Ok(())
    }
}

fn sending(message: Message) -> Taken {
    Ok(Answer { number: 0, decided: None, sent: Some(message) })
}

const SILENT: Answer = Answer { number: 0, decided: None, sent: None };

impl Replica {
    /// Any event on any replica. One that setup would refuse answers with setup's number.
    pub fn answer(&mut self, event: &Message, rows: &[Row]) -> Answer {
        match self.setup_number() {
            0 => self.step(event, rows),
            number => Answer::refused(number),
        }
    }

    /// An event on a replica that setup would take. `rows` are a request's.
    pub fn step(&mut self, event: &Message, rows: &[Row]) -> Answer {
        let taken = match event {
            Message::Start => self.start(),
            Message::Enter { view } => self.enter(*view),
            Message::Proposal { head, entry, mask } => self.proposal(head, entry, *mask),
            Message::Acknowledgement { head, entry } => self.acknowledgement(head, entry),
            Message::Vote(row) => self.vote(&row.head, &row.vote),
            Message::Request { head, entry, .. } => self.request(head, entry, rows),
            Message::Confirmation { head, entry } => self.confirmation(head, entry),
        };
        taken.unwrap_or_else(Answer::refused)
    }

    fn start(&mut self) -> Taken {
        refuse(8, self.view != 1)?;
        refuse(9, !self.leads(self.seat, self.view))?;
        refuse(12, self.stage == PROPOSED)?;
        self.stage = PROPOSED;
        sending(Message::Proposal { head: self.head(), entry: self.own, mask: 0 })
    }

    fn enter(&mut self, view: u32) -> Taken {
        refuse(5, view == 0)?;
        refuse(8, view <= self.view)?;
        self.view = view;
        self.votes.fill(VoteRow::EMPTY);
        self.chosen = [0; 16];
        self.confirmed = 0;
        self.stage = if self.leads(self.seat, view) { COLLECTING } else { IDLE };
        sending(Message::Vote(Row { head: self.head(), vote: self.vote }))
    }

    fn proposal(&mut self, head: &Head, entry: &Entry, mask: u64) -> Taken {
        self.refuse_head(head)?;
        refuse(8, head.view != self.view)?;
        refuse(9, !self.leads(head.seat, head.view))?;
        refuse(10, !well_formed(entry))?;
        refuse(11, !certificate_good(self.n, self.f, head.view, mask))?;
        refuse(12, self.vote.cast && self.vote.view == head.view)?;
        self.vote = Vote { cast: true, view: head.view, entry: *entry, mask, verified: head.verified };
        sending(Message::Acknowledgement { head: self.head(), entry: *entry })
    }

    /// Any view but 0 is taken: there is no 8 for acknowledgements.
    fn acknowledgement(&mut self, head: &Head, entry: &Entry) -> Taken {
        self.refuse_head(head)?;
        refuse(10, !well_formed(entry))?;
        let row = &mut self.acknowledged[usize::from(head.seat)];
        refuse(12, row.view == head.view)?;
        refuse(17, row.view > head.view)?;
        *row = Acknowledged { view: head.view, entry: *entry };
        let row = *row;
        if self.decided || self.sharing(&row) < self.quorum() {
            return Ok(SILENT);
        }
        self.decided = true;
        self.decision = *entry;
        Ok(Answer { decided: Some(*entry), ..SILENT })
    }

    fn vote(&mut self, head: &Head, vote: &Vote) -> Taken {
        self.refuse_head(head)?;
        refuse(8, head.view != self.view)?;
        refuse(9, !self.leads(self.seat, head.view))?;
        refuse(12, self.filled_row(head.seat).is_some())?;
        refuse(13, self.stage != COLLECTING)?;
        refuse(14, !vote.is_valid(self.n, self.f, head.view))?;
        self.votes[usize::from(head.seat)] = VoteRow { filled: true, vote: *vote };
        self.choose()
    }

    /// The leader's choice after a vote, once the selection no longer waits.
    fn choose(&mut self) -> Taken {
        // Rows that are not valid only make fewer, so this wait needs no look at the votes.
        if self.votes.iter().filter(|row| row.filled).count() < self.quorum() {
            return Ok(SILENT);
        }
        self.chosen = match select(self.n, self.f, self.filled_rows()).choice {
            Choice::Wait => return Ok(SILENT),
            Choice::Free => self.own,
            Choice::Forced(entry) => entry,
        };
        self.stage = ASKING;
        let count = self.filled_rows().count() as u8;
        sending(Message::Request { head: self.head(), entry: self.chosen, count })
    }

    fn request(&self, head: &Head, entry: &Entry, rows: &[Row]) -> Taken {
        self.refuse_head(head)?;
        refuse(8, head.view != self.view)?;
        refuse(9, !self.leads(head.seat, head.view))?;
        refuse(10, !well_formed(entry))?;
        refuse(13, head.view == 1)?;
        refuse(15, rows.len() < self.quorum() || !rows_sound(self.n, self.f, head.view, rows))?;
        let fits = match select(self.n, self.f, votes_of(rows)).choice {
            Choice::Wait => false,
            Choice::Free => true,
            Choice::Forced(forced) => forced == *entry,
        };
        refuse(16, !fits)?;
        sending(Message::Confirmation { head: self.head(), entry: *entry })
    }

    fn confirmation(&mut self, head: &Head, entry: &Entry) -> Taken {
        self.refuse_head(head)?;
        refuse(8, head.view != self.view)?;
        refuse(9, !self.leads(self.seat, head.view))?;
        refuse(10, !well_formed(entry))?;
        refuse(12, self.confirmed >> head.seat & 1 != 0)?;
        refuse(13, self.stage != ASKING)?;
        refuse(18, *entry != self.chosen)?;
        self.confirmed |= 1 << head.seat;
        let mask = self.confirmers();
        if mask.count_ones() <= u32::from(self.f) {
            return Ok(SILENT);
        }
        self.stage = PROPOSED;
        sending(Message::Proposal { head: self.head(), entry: self.chosen, mask })
    }

    /// 5, 6 and 7, which P, A, V, Q and C share.
    fn refuse_head(&self, head: &Head) -> Result<(), u8> {
        refuse(5, head.view == 0)?;
        refuse(6, head.seat >= self.n)?;
        refuse(7, !head.verified)
    }

    /// "Messages go out with mark `+`", from this seat and in its current view.
    fn head(&self) -> Head {
        Head { seat: self.seat, verified: true, view: self.view }
    }
}
