//! Events on replicas built by hand, given as lines: one a call, and several in one text.

use second::compare::show;
use second::lines::{read, read_row};
use second::message::Message;
use second::random::Random;
use second::replica::Replica;

use crate::arrays::Arrays;
use crate::asked::{first_byte, pattern, save, Asked, BEHIND};
use crate::cells::{Cell, Cells};
use crate::coverage;
use crate::ffi;
use crate::model::{self, Printed, LEAST_ROOM};
use crate::wilder;

/// The same replica in the model and in the library.
#[derive(Clone)]
pub struct Pair {
    model: Replica,
    arrays: Arrays,
    /// Whether the library's words have bits that do not count. It may keep or clear these.
    high_bits: bool,
}

/// A call of the library: what it was given and what it did.
struct Call<'a> {
    before: &'a Replica,
    text: &'a [u8],
    room: usize,
    out: Vec<u8>,
    length: usize,
}

pub fn check(random: &mut Random, asked: &mut Asked) -> Result<(), String> {
    let mut pair = Pair::new(wilder::replica(random));
    if random.chance(10) {
        pair.high_bits = true;
        pair.arrays.add_high_bits(random);
    }
    check_one_by_one(random, pair.clone(), asked)?;
    check_text(random, pair, asked)
}

fn check_one_by_one(random: &mut Random, mut pair: Pair, asked: &mut Asked) -> Result<(), String> {
    for turn in 0..random.pick(&[1, 2, 4, 8]) {
        let text = wilder::event(random, &pair.model);
        let room = random.pick(&[LEAST_ROOM, LEAST_ROOM + 1, LEAST_ROOM + 900]);
        let printed = pair.ask(random, &text, room, asked)?;
        asked.cells.add_if(turn >= 2, Cell::TextAgain);
        asked.cells.add_if(room == LEAST_ROOM && printed.ends.len() == 1, Cell::RoomLeast);
        asked.cells.add_if(!text.ends_with(b"\n"), Cell::TextWithoutLf);
        asked.cells.add_if(pair.high_bits, Cell::WordsHigh);
        count_rows(&mut asked.cells, &text);
    }
    Ok(())
}

/// A request whose rows are not all there.
fn count_rows(cells: &mut Cells, text: &[u8]) {
    let mut lines = text.split_inclusive(|&byte| byte == b'\n');
    if let Some(Message::Request { count, .. }) = lines.next().and_then(read) {
        let rows: Vec<bool> = lines.map(|line| read_row(line).is_some()).take(usize::from(count)).collect();
        cells.add_if(rows.len() < usize::from(count), Cell::TextRowsMissing);
        cells.add_if(rows.contains(&false), Cell::TextRowBroken);
    }
}

fn check_text(random: &mut Random, mut pair: Pair, asked: &mut Asked) -> Result<(), String> {
    let text = text(random, pair.model.clone());
    let ends = model::events(&mut pair.model.clone(), &text, usize::MAX, |_| {}).ends;
    let room = room(random, &ends);
    let done = pair.ask(random, &text, room, asked)?.ends.len();
    let left = done.checked_sub(1).map_or(room, |last| room - ends[last]);
    let cells = &mut asked.cells;
    cells.add_if(text.is_empty() && room >= LEAST_ROOM, Cell::TextEmpty);
    cells.add_if(done > 1, Cell::TextSeveral);
    cells.add_if(!text.is_empty() && room < LEAST_ROOM, Cell::RoomNone);
    cells.add_if(!text.is_empty() && room == LEAST_ROOM - 1, Cell::RoomAlmost);
    cells.add_if(ends[..done.saturating_sub(1)].iter().any(|end| room - end == LEAST_ROOM), Cell::RoomJust);
    cells.add_if(done > 0 && done < ends.len() && left == LEAST_ROOM - 1, Cell::RoomShort);
    Ok(())
}

/// The lines of some events that come one after the other.
fn text(random: &mut Random, mut replica: Replica) -> Vec<u8> {
    let mut text = Vec::new();
    for _ in 0..random.pick(&[0, 2, 3, 5, 12]) {
        let lines = wilder::event(random, &replica);
        model::events(&mut replica, &lines, usize::MAX, |_| {});
        text.extend_from_slice(&lines);
    }
    text
}

/// Room for all that would be printed, for a part of it, or for nothing; often just enough for one more event.
fn room(random: &mut Random, ends: &[usize]) -> usize {
    let all = ends.last().copied().unwrap_or(0);
    let some = if ends.is_empty() { 0 } else { random.pick(ends) };
    match random.below(8) {
        0 => random.index(LEAST_ROOM),
        1 => LEAST_ROOM - 1,
        2 | 3 => LEAST_ROOM + some,
        4 | 5 => (LEAST_ROOM + some).saturating_sub(1),
        _ => LEAST_ROOM + all + random.index(100),
    }
}

impl Pair {
    pub fn new(model: Replica) -> Pair {
        Pair { arrays: Arrays::of(&model), model, high_bits: false }
    }

    /// Gives both the same text and compares what they print and the replicas afterwards.
    pub fn ask(&mut self, random: &mut Random, text: &[u8], room: usize, asked: &mut Asked) -> Result<Printed, String> {
        let before = self.model.clone();
        let printed = model::events(&mut self.model, text, room, |seen| coverage::count(&mut asked.cells, seen));
        let mut expected = pattern(random, room + BEHIND);
        let mut out = expected.clone();
        expected[..printed.bytes.len()].copy_from_slice(&printed.bytes);
        let length = ffi::events(&mut self.arrays, text, &mut out[..room]);
        asked.calls += 1;
        let wanted = Arrays::of(&self.model);
        let cleared = self.high_bits.then(|| self.arrays.without_high_bits());
        let arrays = cleared.as_ref().unwrap_or(&self.arrays);
        if length == printed.bytes.len() && out == expected && *arrays == wanted {
            return Ok(printed);
        }
        let call = Call { before: &before, text, room, out, length };
        Err(call.describe(&printed, &expected, &wanted.differences(arrays)))
    }
}

impl Call<'_> {
    fn describe(&self, printed: &Printed, expected: &[u8], differences: &[String]) -> String {
        let Replica { n, f, seat, stage, view, .. } = self.before;
        let whole = save("replica", format!("{:#?}\n", self.before).as_bytes());
        let mut lines = vec![
            "events on a replica".to_string(),
            format!("before: n {n}, f {f}, seat {seat}, stage {stage}, view {view}; {whole}"),
            format!("text: {}; {}", show(Some(self.text)), save("text", self.text)),
            format!("out: {} bytes lent; expected length {}, got {}", self.room, printed.bytes.len(), self.length),
        ];
        if let Some(byte) = first_byte(expected, &self.out) {
            lines.push(format!("out, expected: {}", show(Some(&printed.bytes))));
            lines.push(format!("out, got:      {}", show(self.out.get(..self.length))));
            lines.push(format!("out, {byte}"));
        }
        lines.extend(differences.iter().take(8).cloned());
        lines.extend((differences.len() > 8).then(|| format!("and {} more words", differences.len() - 8)));
        lines.join("\n  ")
    }
}
