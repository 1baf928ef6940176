//! The selection: which entry the leader of a new view may propose.

use crate::entry::Entry;
use crate::message::Row;
use crate::seats::{leader, size_number};
use crate::vote::Vote;

#[derive(Clone, Copy, Debug, PartialEq, Eq)]
pub enum Choice {
    Wait,
    Free,
    Forced(Entry),
}

/// What the selection answers, and which of its five steps answered.
#[derive(Clone, Copy, Debug, PartialEq, Eq)]
pub struct Selection {
    pub step: u8,
    pub choice: Choice,
}

/// The five steps over valid rows, one per seat.
pub fn select<'a, R>(n: u8, f: u8, rows: R) -> Selection
where
    R: Iterator<Item = (u8, &'a Vote)> + Clone,
{
    let quorum = usize::from(n - f);
    let answer = |step, choice| Selection { step, choice };

    if rows.clone().count() < quorum {
        return answer(1, Choice::Wait);
    }
    let cast = rows.clone().filter(|(_, vote)| vote.cast);
    let Some(w) = cast.clone().map(|(_, vote)| vote.view).max() else {
        return answer(2, Choice::Free);
    };
    let at_w = cast.filter(|(_, vote)| vote.view == w);
    let mut entries = at_w.clone().map(|(_, vote)| vote.entry);
    if let Some(first) = entries.next() {
        if entries.all(|entry| entry == first) {
            return answer(3, Choice::Forced(first));
        }
    }
    // The leader of w proposed twice: its own row is not one of the n − f.
    let q = leader(w, n);
    if rows.filter(|&(seat, _)| seat != q).count() < quorum {
        return answer(4, Choice::Wait);
    }
    let others = at_w.filter(|&(seat, _)| seat != q).map(|(_, vote)| vote.entry);
    let enough = |entry: &Entry| others.clone().filter(|other| other == entry).count() >= 2 * usize::from(f);
    answer(5, others.clone().filter(enough).min().map_or(Choice::Free, Choice::Forced))
}

/// What 15 asks of the rows themselves, apart from how few there may be.
pub fn rows_sound(n: u8, f: u8, view: u32, rows: &[Row]) -> bool {
    rows.len() <= usize::from(n)
        && rows.windows(2).all(|pair| pair[0].head.seat < pair[1].head.seat)
        && rows
            .iter()
            .all(|row| row.head.seat < n && row.head.verified && row.head.view == view && row.vote.is_valid(n, f, view))
}

/// The rows as `select` takes them.
pub fn votes_of(rows: &[Row]) -> impl Iterator<Item = (u8, &Vote)> + Clone {
    rows.iter().map(|row| (row.head.seat, &row.vote))
}

/// The selection called by itself: an answer, or 1, 2, 5 or 15.
pub fn select_alone(n: u8, f: u8, view: u32, rows: &[Row]) -> Result<Selection, u8> {
    match size_number(n, f) {
        0 if view == 0 => Err(5),
        0 if !rows_sound(n, f, view, rows) => Err(15),
        0 => Ok(select(n, f, votes_of(rows))),
        number => Err(number),
    }
}
