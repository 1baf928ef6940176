//! Requests with rows of every kind.

use crate::message::{Head, Message, Row};
use crate::replica::Replica;
use crate::runs::cells::Cell;
use crate::runs::damage;
use crate::runs::script::{event_lines, Script};
use crate::seats::leader;
use crate::selection::{select, votes_of, Choice};
use crate::twists::{bad_rows, good_rows};
use crate::values::entry;

/// Sends a request as its leader might, for what its rows force or for something else.
pub fn send_fitting(script: &mut Script) {
    let Replica { n, f, view, .. } = script.replica;
    let rows = good_rows(&mut script.random, &script.replica);
    let forced = match select(n, f, votes_of(&rows)).choice {
        Choice::Forced(entry) if script.random.chance(80) => entry,
        _ => entry(&mut script.random),
    };
    let head = Head { seat: leader(view, n), verified: true, view };
    let message = Message::Request { head, entry: forced, count: 0 };
    match script.random.below(10) {
        0 => send_broken(script, &message, rows),
        1..=3 => {
            let rows = bad_rows(&mut script.random, &script.replica, rows);
            script.send(&message, &rows);
        }
        _ => {
            script.send(&message, &rows);
        }
    }
}

/// Sends this request with rows that are mostly good.
pub fn send(script: &mut Script, message: Message) {
    let mut rows = good_rows(&mut script.random, &script.replica);
    if script.random.chance(30) {
        rows = bad_rows(&mut script.random, &script.replica, rows);
    }
    if script.random.chance(15) {
        send_broken(script, &message, rows);
    } else {
        script.send(&message, &rows);
    }
}

/// A request with lines among its rows that are no V lines: one event with 19.
fn send_broken(script: &mut Script, message: &Message, rows: Vec<Row>) {
    let whole = event_lines(message, &rows);
    let mut lines: Vec<Vec<u8>> = whole.split_inclusive(|&byte| byte == b'\n').map(<[u8]>::to_vec).collect();
    if lines.len() < 2 {
        return;
    }
    for _ in 0..script.random.pick(&[1, 1, 2]) {
        let which = 1 + script.random.index(lines.len() - 1);
        let (cell, line) = other_line(script, &whole, &lines[which]);
        script.cells.add(cell);
        lines[which] = line;
    }
    let own_number = script.replica.clone().step(message, &rows).number;
    script.cells.add_if((5..=13).contains(&own_number), Cell::RequestHeadAnd19);
    script.write(&lines.concat());
}

/// A line to stand where a row should.
fn other_line(script: &mut Script, whole: &[u8], row: &[u8]) -> (Cell, Vec<u8>) {
    let first = whole.split_inclusive(|&byte| byte == b'\n').next().unwrap_or_default();
    match script.random.below(5) {
        0 => (Cell::RowRequest, first.to_vec()),
        1 => (Cell::RowOtherKind, script.random.pick(&[&b"S\n"[..], b"E\t3\n", b"H\t4\t1\t0\n"]).to_vec()),
        2 => (Cell::RowBlank, b"\n".to_vec()),
        3 => (Cell::RowLong, damage::long_line(&mut script.random, row)),
        _ => (Cell::RowDamaged, damage::damaged(script, row)),
    }
}

/// Ends the script with a request that the input leaves without its last row, or without that row's LF.
pub fn end_among_rows(script: &mut Script) {
    let Replica { n, view, .. } = script.replica;
    let head = Head { seat: leader(view, n), verified: true, view };
    let message = Message::Request { head, entry: entry(&mut script.random), count: 0 };
    let mut lines = event_lines(&message, &good_rows(&mut script.random, &script.replica));
    lines.pop();
    let cell = if script.random.chance(50) {
        Cell::RowWithoutLf
    } else {
        let end = lines.iter().rposition(|&byte| byte == b'\n').map_or(0, |last| last + 1);
        lines.truncate(end);
        Cell::RowsMissing
    };
    script.cells.add(cell);
    script.write(&lines);
}
