//! The command `wild`: replicas built by hand with any values in them. What the model answers is checked against what
//! 01 says of every answer; the package `library` puts such questions to the first program's library and compares.

pub mod replicas;

use crate::lines::{read, write, LONGEST};
use crate::message::{Head, Message, Row};
use crate::random::Random;
use crate::replica::{Answer, Replica};
use crate::runs::cells::{KINDS, POSSIBLE};
use crate::selection::select_alone;
use crate::vote::Vote;

/// All that an event hands back.
#[derive(Clone, Debug, PartialEq, Eq)]
pub struct Answered {
    pub next: Replica,
    pub answer: Answer,
    /// The rows of a request that is sent.
    pub rows: Vec<Row>,
    pub margin: i32,
}

/// The model's answer to any event on any replica.
pub fn answered(replica: &Replica, event: &Message, rows: &[Row]) -> Answered {
    let mut next = replica.clone();
    let answer = next.answer(event, rows);
    let rows = match answer.sent {
        Some(Message::Request { head, .. }) => {
            next.filled_rows().map(|(seat, vote)| Row { head: Head { seat, ..head }, vote: *vote }).collect()
        }
        _ => Vec::new(),
    };
    let margin = next.margin();
    Answered { next, answer, rows, margin }
}

/// How often each number was given: by the seven events, the selection's steps and numbers, the writer.
struct Counts {
    events: [[u64; 19]; 7],
    steps: [u64; 6],
    selection: [u64; 16],
    writer: [u64; 22],
}

/// Asks `count` questions of each sort; false where an answer breaks a rule or some number never came.
pub fn run(seed: u64, count: u64) -> Result<bool, String> {
    let mut counts = Counts { events: [[0; 19]; 7], steps: [0; 6], selection: [0; 16], writer: [0; 22] };
    for number in 0..count {
        let mut random = Random::new(seed, number);
        let checked = check_event(&mut random, &mut counts)
            .and_then(|()| check_selection(&mut random, &mut counts))
            .and_then(|()| check_writer(&mut random, &mut counts));
        if let Err(broken) = checked {
            println!("wild: question {number} of seed {seed}: {broken}");
            return Ok(false);
        }
    }
    counts.print();
    let missing = counts.missing();
    if !missing.is_empty() {
        println!("wild: never given: {}", missing.join("; "));
        return Ok(false);
    }
    println!("wild: {count} questions of each sort, every number given, 0 broken rules");
    Ok(true)
}

/// "Every refusal returns the replica unchanged, sends nothing and decides nothing"
fn check_event(random: &mut Random, counts: &mut Counts) -> Result<(), String> {
    let replica = replicas::replica(random);
    let (event, rows) = replicas::event(random, &replica);
    let Answered { next, answer, rows: sent_rows, margin } = answered(&replica, &event, &rows);
    counts.events[event.kind()][usize::from(answer.number)] += 1;
    let still = next == replica && answer.sent.is_none() && answer.decided.is_none();
    ensure(answer.number == 0 || still, "a refusal changed, sent or decided something")?;
    ensure((-63..=13).contains(&margin), "the margin is out of its range")?;
    ensure(answer.number > 4 || answer.number == 0 || margin == 0, "a replica that setup refuses has a margin")?;
    let request = matches!(event, Message::Request { .. });
    ensure(!request || next == replica, "a request changed the replica")?;
    let count = if let Some(Message::Request { count, .. }) = answer.sent { usize::from(count) } else { 0 };
    ensure(count == sent_rows.len(), "a request was sent with another count than its rows")
}

fn check_selection(random: &mut Random, counts: &mut Counts) -> Result<(), String> {
    let question = replicas::question(random);
    match select_alone(question.n, question.f, question.view, &question.rows) {
        Ok(selection) => counts.steps[usize::from(selection.step)] += 1,
        Err(number) => counts.selection[usize::from(number)] += 1,
    }
    Ok(())
}

/// The writer leaves every other byte alone, and what it writes reads back as the message.
fn check_writer(random: &mut Random, counts: &mut Counts) -> Result<(), String> {
    let message = replicas::message(random);
    let before: Vec<u8> = (0..random.index(LONGEST + 10)).map(|_| random.word() as u8).collect();
    let mut after = before.clone();
    let (number, length) = write(&message, &mut after);
    counts.writer[usize::from(number)] += 1;
    ensure(after[length..] == before[length..], "a byte after the line was written")?;
    ensure(number == 0 || length == 0, "a message was refused with a length")?;
    ensure(number != 0 || read(&after[..length]) == Some(without_unused(message)), "a line does not read back")
}

/// "Unused fields do not count": those of a nil vote read as zero.
fn without_unused(message: Message) -> Message {
    match message {
        Message::Vote(row) if !row.vote.cast => Message::Vote(Row { vote: Vote::NIL, ..row }),
        other => other,
    }
}

fn ensure(holds: bool, broken: &str) -> Result<(), String> {
    holds.then_some(()).ok_or_else(|| broken.to_string())
}

impl Counts {
    fn print(&self) {
        for (kind, counts) in self.events.iter().enumerate() {
            println!("{:<10}{}", KINDS[kind], nonzero(counts));
        }
        println!("{:<10}{}", "steps", nonzero(&self.steps));
        println!("{:<10}{}", "selection", nonzero(&self.selection));
        println!("{:<10}{}", "writer", nonzero(&self.writer));
    }

    /// Setup's numbers 1 to 4 and the table's numbers for each kind, the five steps, and the rest of the table.
    fn missing(&self) -> Vec<String> {
        let mut missing = Vec::new();
        for (kind, counts) in self.events.iter().enumerate() {
            missing.extend(absent(KINDS[kind], counts, POSSIBLE[kind]));
            missing.extend(absent(KINDS[kind], counts, &[1, 2, 3, 4]));
        }
        missing.extend(absent("step", &self.steps, &[1, 2, 3, 4, 5]));
        missing.extend(absent("selection", &self.selection, &[1, 2, 5, 15]));
        missing.extend(absent("writer", &self.writer, &[0, 20, 21]));
        missing
    }
}

fn absent<'a>(what: &'a str, counts: &'a [u64], wanted: &'a [u8]) -> impl Iterator<Item = String> + 'a {
    wanted.iter().filter(|&&number| counts[usize::from(number)] == 0).map(move |number| format!("{what} with {number}"))
}

fn nonzero(counts: &[u64]) -> String {
    let given = counts.iter().enumerate().filter(|(_, &count)| count > 0);
    given.map(|(number, count)| format!("{number}: {count}")).collect::<Vec<_>>().join("  ")
}
