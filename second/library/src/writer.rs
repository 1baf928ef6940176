//! The writer, into buffers of every length.

use second::compare::show;
use second::lines::{write, LONGEST};
use second::message::{Head, Message};
use second::random::Random;
use second::wild::replicas;

use crate::arrays::{entry_words, high_bits};
use crate::asked::{first_byte, pattern, Asked, BEHIND};
use crate::cells::{Cell, Cells, WRITER};
use crate::ffi;

const LETTERS: [u8; 7] = *b"SEPAVQC";

/// The longest buffer that is lent.
const LENGTHS: usize = 100;

/// A message and how the library is given it.
struct Question {
    message: Message,
    kind: u8,
    words: [u64; 13],
    high_bits: bool,
}

pub fn check(random: &mut Random, asked: &mut Asked) -> Result<(), String> {
    let mut message = replicas::message(random);
    if let Message::Vote(row) = &mut message {
        row.vote.view = random.pick(&[row.vote.view, u32::MAX]);
    }
    let mut kind = LETTERS[message.kind()];
    if random.chance(8) {
        (message, kind) = (Message::Start, other_letter(random));
    }
    let high_bits = random.chance(30);
    let words = words(random, &message, high_bits);
    let question = Question { message, kind, words, high_bits };
    let bytes = pattern(random, LENGTHS + BEHIND);
    (0..=LENGTHS).try_for_each(|length| question.ask(&bytes, length, asked))
}

fn other_letter(random: &mut Random) -> u8 {
    loop {
        let letter = if random.chance(50) { random.pick(b"Hsepavqc\0") } else { random.word() as u8 };
        if !LETTERS.contains(&letter) {
            return letter;
        }
    }
}

/// The words of a message; those that its kind does not use have anything in them.
fn words(random: &mut Random, message: &Message, high: bool) -> [u64; 13] {
    let mut words = [(); 13].map(|()| random.word());
    let mut word = |value: u64, bits: u32| if high { value | high_bits(random, bits) } else { value };
    if let Some(Head { seat, verified, view }) = message.head() {
        words[0] = word(u64::from(*seat), 8);
        words[1] = word(u64::from(*verified), 1);
        words[2] = word(u64::from(*view), 32);
    }
    match message {
        Message::Start => {}
        Message::Enter { view } => words[2] = word(u64::from(*view), 32),
        Message::Proposal { entry, mask, .. } => {
            words[3..5].copy_from_slice(&entry_words(entry));
            words[5] = *mask;
        }
        Message::Acknowledgement { entry, .. } | Message::Confirmation { entry, .. } => {
            words[3..5].copy_from_slice(&entry_words(entry));
        }
        Message::Request { entry, count, .. } => {
            words[3..5].copy_from_slice(&entry_words(entry));
            words[6] = word(u64::from(*count), 8);
        }
        Message::Vote(row) if !row.vote.cast => words[7] = word(0, 1),
        Message::Vote(row) => {
            words[7] = word(1, 1);
            words[8] = word(u64::from(row.vote.verified), 1);
            words[9] = word(u64::from(row.vote.view), 32);
            words[10..12].copy_from_slice(&entry_words(&row.vote.entry));
            words[12] = row.vote.mask;
        }
    }
    words
}

impl Question {
    /// The line into a buffer of this length; the bytes behind the buffer have to stay too.
    fn ask(&self, bytes: &[u8], length: usize, asked: &mut Asked) -> Result<(), String> {
        let mut expected = bytes.to_vec();
        let mut got = bytes.to_vec();
        let (number, written) = write(&self.message, &mut expected[..length]);
        let (got_number, got_written) = ffi::write(self.kind, &self.words, &mut got[..length]);
        asked.calls += 1;
        self.count(&mut asked.cells, length, number);
        if (got_number, got_written) == (number, written as u64) && got == expected {
            return Ok(());
        }
        let mut lines = vec![
            format!("the writer of {:?}, a buffer of {length} bytes", char::from(self.kind)),
            format!("words: {:x?}", self.words),
            format!("expected: number {number}, length {written}, {}", show(Some(&expected[..written]))),
            format!("got:      number {got_number}, length {got_written}"),
        ];
        lines.extend(first_byte(&expected, &got));
        Err(lines.join("\n  "))
    }

    fn count(&self, cells: &mut Cells, length: usize, number: u8) {
        let needed = write(&self.message, &mut [0; LONGEST]).1;
        let [seat, count] = [self.words[0] as u8, self.words[6] as u8];
        let headless = self.message.head().is_none();
        let request = matches!(self.message, Message::Request { .. });
        let nil = matches!(self.message, Message::Vote(row) if !row.vote.cast);
        cells.number(WRITER + self.message.kind(), number);
        cells.add_if(number == 0 && !LETTERS.contains(&self.kind), Cell::WriteOther);
        cells.add_if(number == 0 && length == needed, Cell::WriteJust);
        cells.add_if(number == 0 && length == LONGEST && needed == LONGEST, Cell::WriteLongest);
        cells.add_if(number == 20 && length + 1 == needed, Cell::WriteOneShort);
        cells.add_if(number == 20 && length == 0, Cell::WriteNothing);
        cells.add_if(number == 21 && length < 40, Cell::WriteBoth);
        cells.add_if(number == 21 && seat <= 99, Cell::WriteCount);
        cells.add_if(number == 0 && !request && count > 64, Cell::WriteUnusedCount);
        cells.add_if(number == 0 && headless && seat > 99, Cell::WriteUnusedSeat);
        cells.add_if(number == 0 && nil, Cell::WriteNil);
        cells.add_if(number == 0 && self.high_bits && !headless, Cell::WriteHigh);
    }
}
