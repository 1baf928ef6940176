//! What disturbs a run between its events.

use crate::lines::{read, read_row};
use crate::message::{Message, Row};
use crate::runs::cells::Cell;
use crate::runs::damage;
use crate::runs::requests;
use crate::runs::script::Script;
use crate::twists::{likely_message, twist};

/// Once in a while a line that does not belong here.
pub fn sprinkle(script: &mut Script) {
    match script.random.below(100) {
        0 => damage::write(script),
        1 => replay(script),
        2..=4 => any_message(script),
        _ => {}
    }
}

/// Sends an earlier event again, with its rows.
pub fn replay(script: &mut Script) {
    let mut lines = script.earlier().split_inclusive(|&byte| byte == b'\n');
    let message = lines.next().and_then(read);
    let rows: Option<Vec<Row>> = lines.map(read_row).collect();
    if let (Some(message), Some(rows)) = (message, rows) {
        script.send(&message, &rows);
        script.cells.add(Cell::Replayed);
    }
}

/// Sends a message that might come now, mostly with something wrong in it.
pub fn any_message(script: &mut Script) {
    let message = likely_message(&mut script.random, &script.replica);
    twisted(script, message);
}

/// Sends a message, mostly after changing a thing or two in it.
pub fn twisted(script: &mut Script, mut message: Message) {
    for _ in 0..script.random.pick(&[0, 1, 1, 1, 2, 3]) {
        twist(&mut script.random, &script.replica, &mut message);
    }
    if matches!(message, Message::Request { .. }) {
        requests::send(script, message);
    } else {
        script.send(&message, &[]);
    }
}
