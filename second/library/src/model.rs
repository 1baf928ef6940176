//! What the library has to answer, by the model.

use second::lines::{read, read_row};
use second::message::{Message, Row};
use second::replica::{Answer, Replica};
use second::seats::ROOM;
use second::source::Source;
use second::trace::{next_event, put_event};

/// So many bytes of `out` have to be left, or no further event is done.
pub const LEAST_ROOM: usize = 6_000;

/// One event as it was answered; `None` is one with 19.
pub struct Seen<'a> {
    pub before: &'a Replica,
    pub after: &'a Replica,
    pub event: Option<&'a Message>,
    pub rows: &'a [Row],
    pub answer: &'a Answer,
    pub margin: i32,
}

/// What a text's events print, and where each one's print ends.
pub struct Printed {
    pub bytes: Vec<u8>,
    pub ends: Vec<usize>,
}

/// The part of a text that is taken: whole lines, and a Q only where all its rows stand in the text.
fn taken(text: &[u8]) -> &[u8] {
    let lines: Vec<&[u8]> = text.split_inclusive(|&byte| byte == b'\n').filter(|line| line.ends_with(b"\n")).collect();
    let (mut at, mut next) = (0, 0);
    while next < lines.len() {
        let rows = match read(lines[next]) {
            Some(Message::Request { count, .. }) => count as usize,
            _ => 0,
        };
        let behind = next + 1 + rows;
        if behind > lines.len() {
            break;
        }
        at += lines[next..behind].iter().map(|line| line.len()).sum::<usize>();
        next = behind;
    }
    &text[..at]
}

/// The events of a text on any replica. A line that is no event gets 19 from the reader, so that the replica is not
/// asked, whatever setup would say of it.
pub fn events(replica: &mut Replica, text: &[u8], room: usize, mut see: impl FnMut(&Seen)) -> Printed {
    let mut source = Source::new(taken(text));
    let mut table = [Row::BLANK; ROOM];
    let mut printed = Printed { bytes: Vec::new(), ends: Vec::new() };
    while room.saturating_sub(printed.bytes.len()) >= LEAST_ROOM {
        let Ok(Some((event, rows))) = next_event(&mut source, &mut table) else {
            break;
        };
        let before = replica.clone();
        let answer = match &event {
            Some(message) => replica.answer(message, rows),
            None => Answer::refused(19),
        };
        let margin = replica.margin();
        see(&Seen { before: &before, after: replica, event: event.as_ref(), rows, answer: &answer, margin });
        put_event(&mut printed.bytes, printed.ends.len() as u64 + 1, replica, &answer, margin);
        printed.ends.push(printed.bytes.len());
    }
    printed
}

/// The rows that a text of V lines has; "a line that is none ends them".
pub fn rows(text: &[u8]) -> Vec<Row> {
    text.split_inclusive(|&byte| byte == b'\n').map_while(read_row).collect()
}
