//! Fills the cells that an event falls into.

use second::message::{Head, Message, Row};
use second::replica::{Acknowledged, Replica, VoteRow};
use second::runs::coverage::entries_with_2f;
use second::seats::seats_below;
use second::selection::{select, votes_of, Choice};
use second::vote::Vote;

use crate::cells::{Cell, Cells, NO_EVENT};
use crate::model::Seen;

/// The cells of one event.
pub fn count(cells: &mut Cells, seen: &Seen) {
    cells.number(seen.event.map_or(NO_EVENT, Message::kind), seen.answer.number);
    if seen.before.setup_number() != 0 {
        cells.add_if(seen.event.is_none(), Cell::TextRefused19);
        return;
    }
    margin(cells, seen.margin);
    match seen.event {
        Some(Message::Start) => start(cells, seen),
        Some(Message::Enter { view }) if seen.answer.number == 0 => enter(cells, seen, *view),
        Some(Message::Proposal { head, .. }) => proposal(cells, seen, head),
        Some(Message::Acknowledgement { head, entry }) if seen.answer.number == 0 => {
            acknowledgement(cells, seen, head, &Acknowledged { view: head.view, entry: *entry })
        }
        Some(Message::Vote(row)) => vote(cells, seen, row),
        Some(Message::Request { .. }) => request(cells, seen),
        Some(Message::Confirmation { .. }) => confirmation(cells, seen),
        _ => {}
    }
    if seen.before.view == 0 {
        view_0(cells, seen);
    }
}

fn margin(cells: &mut Cells, margin: i32) {
    cells.add(match margin {
        ..0 => Cell::MarginBelow,
        0 => Cell::MarginZero,
        _ => Cell::MarginAbove,
    });
    cells.add_if(margin == -63, Cell::MarginLowest);
    cells.add_if(margin == 13, Cell::MarginHighest);
}

/// P, V, Q and C, which want the current view, never get further than 8 in view 0.
fn view_0(cells: &mut Cells, seen: &Seen) {
    use Message::{Confirmation, Proposal, Request, Vote};
    if let Some(Proposal { .. } | Vote(_) | Request { .. } | Confirmation { .. }) = seen.event {
        cells.add(match seen.answer.number {
            5 => Cell::View0With5,
            6 => Cell::View0With6,
            7 => Cell::View0With7,
            _ => Cell::View0With8,
        });
    }
}

fn start(cells: &mut Cells, seen: &Seen) {
    cells.add_if(seen.answer.number == 0 && seen.before.stage > 3, Cell::StartStage);
    cells.add_if(seen.answer.number == 8 && seen.before.view == 0, Cell::StartView0);
}

fn enter(cells: &mut Cells, seen: &Seen, view: u32) {
    let Replica { n, view: left, vote, chosen, confirmed, .. } = *seen.before;
    let (below, above) = seen.before.votes.split_at(usize::from(n));
    let any = |rows: &[VoteRow]| rows.iter().any(|row| *row != VoteRow::EMPTY);
    let leads = seen.after.leads(seen.after.seat, view);
    cells.add(if leads { Cell::EnterLeading } else { Cell::EnterFollowing });
    cells.add_if(chosen != [0; 16] && confirmed != 0 && any(below), Cell::EnterClears);
    cells.add_if(any(above), Cell::EnterClearsHigh);
    cells.add_if(left == 0, Cell::EnterView0);
    cells.add_if(!vote.cast && vote != Vote::NIL, Cell::EnterNilUnused);
    cells.add_if(vote.cast && vote.view >= view, Cell::EnterLaterVote);
    cells.add_if(vote.cast && !vote.verified, Cell::EnterMark);
}

fn proposal(cells: &mut Cells, seen: &Seen, head: &Head) {
    let vote = &seen.before.vote;
    let taken = seen.answer.number == 0;
    cells.add_if(taken && !vote.cast && vote.view == head.view, Cell::ProposalNilUnused);
    cells.add_if(taken && vote.cast && vote.view > head.view, Cell::ProposalLaterVote);
}

/// One that was taken.
fn acknowledgement(cells: &mut Cells, seen: &Seen, head: &Head, row: &Acknowledged) {
    let old = &seen.before.acknowledged[usize::from(head.seat)];
    let sharing = seen.after.sharing(row);
    let all = seen.after.acknowledged.iter().filter(|other| *other == row).count();
    let quorum = seen.after.quorum();
    cells.add_if(seen.answer.decided.is_some(), Cell::AcknowledgeDecides);
    cells.add_if(sharing >= quorum && seen.before.decided, Cell::AcknowledgeDecided);
    cells.add_if(sharing < quorum && all >= quorum && !seen.before.decided, Cell::AcknowledgeHigh);
    cells.add_if(all as i32 - quorum as i32 > seen.margin, Cell::AcknowledgeHighMargin);
    cells.add_if(seen.before.view == 0, Cell::AcknowledgeView0);
    cells.add_if(old.view == 0 && old.entry != [0; 16], Cell::AcknowledgeUnused);
}

fn vote(cells: &mut Cells, seen: &Seen, row: &Row) {
    let old = seen.before.votes.get(usize::from(row.head.seat)).unwrap_or(&VoteRow::EMPTY);
    match seen.answer.number {
        0 => {
            cells.add_if(old.filled, Cell::VoteInvalidRow);
            cells.add_if(!row.vote.cast && old.vote != Vote::NIL, Cell::VoteNil);
            vote_taken(cells, seen.after);
        }
        13 => {
            cells.add_if(old.filled, Cell::VoteInvalidRow13);
            cells.add_if(seen.before.stage > 3, Cell::VoteStage);
        }
        14 => cells.add_if(old.filled, Cell::VoteInvalidRow14),
        _ => {}
    }
    if let Some(Message::Request { count, .. }) = seen.answer.sent {
        let mut rows = seen.after.filled_rows();
        cells.add_if(usize::from(count) > seen.after.quorum() + 1, Cell::VoteSentMore);
        cells.add_if(rows.any(|(_, vote)| !vote.cast && *vote != Vote::NIL), Cell::VoteSentUnused);
    }
}

fn vote_taken(cells: &mut Cells, after: &Replica) {
    let Replica { n, f, view, .. } = *after;
    let selection = select(n, f, after.filled_rows());
    let several = entries_with_2f(n, f, after.filled_rows()) > 1;
    cells.add(match selection.step {
        1 => Cell::VoteStep1,
        2 => Cell::VoteStep2,
        3 => Cell::VoteStep3,
        4 => Cell::VoteStep4,
        _ if selection.choice == Choice::Free => Cell::VoteStep5Free,
        _ if several => Cell::VoteStep5Several,
        _ => Cell::VoteStep5One,
    });
    cells.add_if(selection.step == 5 && several && n + 1 == 5 * f, Cell::VoteStep5Tight);
    let count = |rows: &[VoteRow], valid: bool| {
        rows.iter().filter(|row| row.filled && (!valid || row.vote.is_valid(n, f, view))).count()
    };
    let waits = selection.step == 1;
    cells.add_if(waits && count(&after.votes, true) >= after.quorum(), Cell::VoteHighRows);
    cells.add_if(waits && count(&after.votes[..usize::from(n)], false) >= after.quorum(), Cell::VoteInvalidRows);
}

fn request(cells: &mut Cells, seen: &Seen) {
    let number = seen.answer.number;
    if number != 0 && number != 16 {
        return;
    }
    let selection = select(seen.before.n, seen.before.f, votes_of(seen.rows));
    cells.add(match (selection.step, number) {
        (2, _) => Cell::RequestStep2,
        (3, 0) => Cell::RequestStep3,
        (3, _) => Cell::RequestStep3Other,
        (4, _) => Cell::RequestStep4,
        _ if selection.choice == Choice::Free => Cell::RequestStep5Free,
        (_, 0) => Cell::RequestStep5,
        _ => Cell::RequestStep5Other,
    });
}

fn confirmation(cells: &mut Cells, seen: &Seen) {
    let Replica { n, f, confirmed, .. } = *seen.after;
    cells.add_if(seen.answer.number == 13 && seen.before.stage > 3, Cell::ConfirmStage);
    if seen.answer.number != 0 {
        return;
    }
    if let Some(Message::Proposal { mask, .. }) = seen.answer.sent {
        cells.add_if(confirmed & !seats_below(n) != 0, Cell::ConfirmHigh);
        cells.add_if(mask.count_ones() > u32::from(f) + 1, Cell::ConfirmMany);
    } else {
        cells.add_if(confirmed.count_ones() > u32::from(f), Cell::ConfirmHighFew);
    }
}
