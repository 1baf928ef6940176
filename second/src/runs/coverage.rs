//! Looks on while the model runs a trace and fills the cells that its events fall into.

use std::collections::BTreeMap;

use crate::entry::{well_formed, Entry, SERIAL};
use crate::lines::Opening;
use crate::message::{Head, Message, Row};
use crate::replica::{Acknowledged, Answer, Replica};
use crate::runs::cells::{Cell, Cells};
use crate::seats::{leader, seats_below};
use crate::selection::{select, votes_of, Choice, Selection};
use crate::trace::Watch;
use crate::values::TWINS;
use crate::vote::Vote;

pub struct Coverage<'a> {
    pub cells: &'a mut Cells,
    last_margin: i32,
}

impl<'a> Coverage<'a> {
    pub fn new(cells: &'a mut Cells) -> Coverage<'a> {
        Coverage { cells, last_margin: i32::MIN }
    }

    fn answered_acknowledgement(
        &mut self,
        replica: &Replica,
        head: &Head,
        entry: &Entry,
        answer: &Answer,
        margin: i32,
    ) {
        let row = Acknowledged { view: head.view, entry: *entry };
        let enough = replica.sharing(&row) >= replica.quorum();
        self.cells.add(if answer.decided.is_some() { Cell::Decided } else { Cell::NotDecided });
        if enough && answer.decided.is_none() {
            self.cells.add(Cell::DecidedBefore);
            self.cells.add_if(replica.decision != *entry, Cell::OtherDecidedBefore);
        }
        self.cells.add_if(margin < self.last_margin, Cell::MarginFalls);
        if !replica.decided {
            let alike = replica
                .acknowledged
                .iter()
                .filter(|other| other.view == row.view && solid(&other.entry).eq(solid(entry)));
            self.cells.add_if(alike.count() >= replica.quorum(), Cell::TwinsNotDecided);
        }
    }

    fn answered_vote(&mut self, replica: &Replica, row: &Row, number: u8) {
        if number == 14 {
            self.invalid_vote(replica, row);
        }
        if number != 0 {
            return;
        }
        let selection = select(replica.n, replica.f, replica.filled_rows());
        self.cells.add(match selection.step {
            1 => Cell::VoteStep1,
            2 => Cell::VoteStep2,
            3 => Cell::VoteStep3,
            4 => Cell::VoteStep4,
            _ if selection.choice == Choice::Free => Cell::VoteStep5Free,
            _ if entries_with_2f(replica.n, replica.f, replica.filled_rows()) > 1 => Cell::VoteStep5Several,
            _ => Cell::VoteStep5One,
        });
        self.cells.add_if(selection.choice == Choice::Free, Cell::SentOwn);
    }

    /// Why a vote got 14, where there is one reason only.
    fn invalid_vote(&mut self, replica: &Replica, row: &Row) {
        let Vote { view, entry, mask, verified, .. } = row.vote;
        let high = mask & !seats_below(replica.n) != 0;
        let mut reasons = vec![];
        reasons.extend((view == 0).then_some(Cell::VoteView0));
        reasons.extend((view == row.head.view).then_some(Cell::VoteSameView));
        reasons.extend((view > row.head.view).then_some(Cell::VoteLaterView));
        reasons.extend((!well_formed(&entry)).then_some(Cell::VoteEntry));
        reasons.extend((view == 1 && mask != 0).then_some(Cell::VoteMaskInView1));
        reasons.extend((view > 1 && high).then_some(Cell::VoteHighBits));
        reasons.extend((view > 1 && mask.count_ones() == u32::from(replica.f)).then_some(Cell::VoteFewSigners));
        reasons.extend((!verified).then_some(Cell::VoteMark));
        if let [reason] = reasons[..] {
            self.cells.add(reason);
            self.cells.add_if(reason == Cell::VoteEntry && no_serial(&entry), Cell::NoSerialVote);
        }
    }

    fn answered_proposal(&mut self, replica: &Replica, view: u32, mask: u64, number: u8) {
        let (n, f, signers) = (replica.n, u32::from(replica.f), mask.count_ones());
        let high = mask & !seats_below(n) != 0;
        self.cells.add_if(number == 11 && view == 1, Cell::ProposalMaskInView1);
        self.cells.add_if(number == 11 && view > 1 && signers == f && !high, Cell::ProposalFewSigners);
        self.cells.add_if(number == 11 && view > 1 && signers > f && high, Cell::ProposalHighBits);
        self.cells.add_if(number == 0 && view > 1 && signers == f + 1, Cell::ProposalJustEnough);
    }

    fn answered_request(&mut self, replica: &Replica, head: &Head, rows: &[Row], number: u8) {
        self.cells.add_if(rows.is_empty(), Cell::Count0);
        self.cells.add_if(rows.len() == 64, Cell::Count64);
        match number {
            15 => self.broken_rows(replica, head, rows),
            0 | 16 => self.selected(replica, rows, number),
            _ => {}
        }
    }

    /// Why rows got 15, where there is one reason only.
    fn broken_rows(&mut self, replica: &Replica, head: &Head, rows: &[Row]) {
        let (n, f, view) = (replica.n, replica.f, head.view);
        let seats: Vec<u8> = rows.iter().map(|row| row.head.seat).collect();
        let any = |broken: &dyn Fn(&Row) -> bool| rows.iter().any(broken);
        let mut reasons = vec![];
        reasons.extend((rows.len() < replica.quorum()).then_some(Cell::OnlyFew));
        reasons.extend((rows.len() > usize::from(n)).then_some(Cell::OnlyMany));
        reasons.extend(seats.windows(2).any(|pair| pair[0] == pair[1]).then_some(Cell::OnlyRepeated));
        reasons.extend(seats.windows(2).any(|pair| pair[0] > pair[1]).then_some(Cell::OnlyUnsorted));
        reasons.extend(any(&|row| row.head.seat >= n).then_some(Cell::OnlySeat));
        reasons.extend(any(&|row| !row.head.verified).then_some(Cell::OnlyMark));
        reasons.extend(any(&|row| row.head.view != view).then_some(Cell::OnlyView));
        reasons.extend(any(&|row| !row.vote.is_valid(n, f, view)).then_some(Cell::OnlyVote));
        // More than n rows cannot all be of different seats below n: two reasons are the least then.
        let many = rows.len() > usize::from(n) && reasons.len() == 2;
        match reasons[..] {
            [reason] => self.cells.add(reason),
            _ => self.cells.add_if(many, Cell::OnlyMany),
        }
        let with_serials = rows.iter().all(|row| with_serial(row.vote).is_valid(n, f, view));
        self.cells.add_if(reasons == [Cell::OnlyVote] && with_serials, Cell::NoSerialRow);
    }

    fn selected(&mut self, replica: &Replica, rows: &[Row], number: u8) {
        let Selection { step, choice } = select(replica.n, replica.f, votes_of(rows));
        let several = step == 5 && entries_with_2f(replica.n, replica.f, votes_of(rows)) > 1;
        self.cells.add(match (step, number) {
            (2, _) => Cell::RequestStep2,
            (3, 0) => Cell::RequestStep3,
            (3, _) => Cell::RequestStep3Other,
            (4, _) => Cell::RequestStep4,
            _ if choice == Choice::Free => Cell::RequestStep5Free,
            (_, 0) if several => Cell::RequestStep5Several,
            (_, _) if several => Cell::RequestStep5SeveralOther,
            (_, 0) => Cell::RequestStep5One,
            _ => Cell::RequestStep5OneOther,
        });
        let q = highest_view(votes_of(rows)).map(|view| leader(view, replica.n));
        self.cells.add_if(step == 5 && rows.iter().any(|row| Some(row.head.seat) == q), Cell::RequestLiar);
    }

    /// Twelve blanks, and the shortest serial, in an event's own entry and in its votes.
    fn serials(&mut self, event: &Message, rows: &[Row], number: u8) {
        let (entry, none, shortest) = match event {
            Message::Proposal { entry, .. } => (entry, Cell::NoSerialProposal, Cell::ShortestProposal),
            Message::Acknowledgement { entry, .. } => {
                (entry, Cell::NoSerialAcknowledgement, Cell::ShortestAcknowledgement)
            }
            // Its 14 is counted among the reasons for one.
            Message::Vote(row) => {
                let shortest = row.vote.cast && shortest_serial(&row.vote.entry);
                return self.cells.add_if(number == 0 && shortest, Cell::ShortestVote);
            }
            Message::Request { entry, .. } => (entry, Cell::NoSerialRequest, Cell::ShortestRequest),
            Message::Confirmation { entry, .. } => (entry, Cell::NoSerialConfirmation, Cell::ShortestConfirmation),
            Message::Start | Message::Enter { .. } => return,
        };
        self.cells.add_if(number == 10 && no_serial(entry), none);
        self.cells.add_if(number == 0 && shortest_serial(entry), shortest);
        let row = rows.iter().any(|row| row.vote.cast && shortest_serial(&row.vote.entry));
        self.cells.add_if(number == 0 && row, Cell::ShortestRow);
    }

    fn sent(&mut self, replica: &Replica, event: &Message, sent: &Message) {
        match sent {
            Message::Request { count, .. } => {
                let more = usize::from(*count) > replica.quorum();
                self.cells.add(if more { Cell::SentRowsMore } else { Cell::SentRowsQuorum });
                self.cells.add(match count {
                    3 => Cell::SentRows3,
                    4..=15 => Cell::SentRowsTo15,
                    16..=40 => Cell::SentRowsTo40,
                    41..=63 => Cell::SentRowsTo63,
                    _ => Cell::SentRows64,
                });
            }
            Message::Proposal { mask, .. } if *event != Message::Start => self.cells.add(match mask.count_ones() {
                2 => Cell::SentSigners2,
                3..=7 => Cell::SentSignersTo7,
                _ => Cell::SentSignersTo14,
            }),
            Message::Vote(row) => {
                self.cells.add(if row.vote.cast { Cell::SentVote } else { Cell::SentNil });
                self.cells.add_if(row.head.view == u32::MAX, Cell::HighestView);
            }
            _ => {}
        }
    }

    fn margin(&mut self, margin: i32) {
        self.cells.add(match margin {
            ..0 => Cell::MarginBelow,
            0 => Cell::MarginZero,
            _ => Cell::MarginAbove,
        });
        self.cells.add_if(margin == -63, Cell::MarginLowest);
        self.cells.add_if(margin == 13, Cell::MarginHighest);
        self.last_margin = margin;
    }
}

impl Watch for Coverage<'_> {
    fn opened(&mut self, opening: Option<&Opening>, number: u8) {
        self.cells.number(8, number);
        if let Some(Opening { own, .. }) = opening {
            self.cells.add_if(number == 4 && no_serial(own), Cell::NoSerialOpening);
            self.cells.add_if(number == 0 && shortest_serial(own), Cell::ShortestOpening);
        }
    }

    fn answered(&mut self, replica: &Replica, event: Option<&Message>, rows: &[Row], answer: &Answer, margin: i32) {
        let number = answer.number;
        self.cells.number(event.map_or(7, Message::kind), number);
        match event {
            Some(Message::Acknowledgement { head, entry }) if number == 0 => {
                self.answered_acknowledgement(replica, head, entry, answer, margin)
            }
            Some(Message::Vote(row)) => self.answered_vote(replica, row, number),
            Some(Message::Proposal { head, mask, .. }) => self.answered_proposal(replica, head.view, *mask, number),
            Some(Message::Request { head, .. }) => self.answered_request(replica, head, rows, number),
            _ => {}
        }
        if let Some(event) = event {
            self.serials(event, rows, number);
        }
        if let (Some(event), Some(sent)) = (event, &answer.sent) {
            self.sent(replica, event, sent);
        }
        let own = event.and_then(Message::head).is_some_and(|head| head.seat == replica.seat);
        self.cells.add_if(own && number == 0, Cell::OwnMessage);
        self.margin(margin);
    }
}

/// Whether the serial is blanks alone.
fn no_serial(entry: &Entry) -> bool {
    entry[..SERIAL] == [b' '; SERIAL]
}

/// Whether the serial is one visible byte, then blanks.
fn shortest_serial(entry: &Entry) -> bool {
    well_formed(entry) && entry[1] == b' '
}

/// The vote as it would be for a device, where it is for twelve blanks.
fn with_serial(vote: Vote) -> Vote {
    if no_serial(&vote.entry) {
        Vote { entry: TWINS[0], ..vote }
    } else {
        vote
    }
}

/// An entry with the blanks taken out, which must not be what is compared.
fn solid(entry: &Entry) -> impl Iterator<Item = &u8> {
    entry.iter().filter(|&&byte| byte != b' ')
}

fn highest_view<'a>(rows: impl Iterator<Item = (u8, &'a Vote)>) -> Option<u32> {
    rows.filter(|(_, vote)| vote.cast).map(|(_, vote)| vote.view).max()
}

/// How many entries have 2f rows at the highest view, the rows of its leader left out.
pub fn entries_with_2f<'a>(n: u8, f: u8, rows: impl Iterator<Item = (u8, &'a Vote)> + Clone) -> usize {
    let Some(w) = highest_view(rows.clone()) else {
        return 0;
    };
    let q = leader(w, n);
    let mut counts: BTreeMap<Entry, usize> = BTreeMap::new();
    for (_, vote) in rows.filter(|&(seat, vote)| seat != q && vote.cast && vote.view == w) {
        *counts.entry(vote.entry).or_default() += 1;
    }
    counts.values().filter(|&&count| count >= 2 * usize::from(f)).count()
}
