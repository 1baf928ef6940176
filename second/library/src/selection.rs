//! The selection by itself, over V lines.

use second::compare::show;
use second::lines::put_row;
use second::message::{Head, Row};
use second::random::Random;
use second::replica::Replica;
use second::runs::coverage::entries_with_2f;
use second::runs::damage::damaged_line;
use second::selection::{rows_sound, select_alone, votes_of, Choice, Selection};
use second::twists::good_rows;
use second::vote::Vote;
use second::wild::replicas::{self, Question};

use crate::arrays::entry_words;
use crate::asked::{save, Asked};
use crate::cells::{Cell, Cells, SELECTION};
use crate::ffi;
use crate::model;

/// More rows than the largest house has seats.
const MOST_ROWS: usize = 70;

pub fn check(random: &mut Random, asked: &mut Asked) -> Result<(), String> {
    let asking = if random.chance(5) { largest(random) } else { any(random) };
    let text = text(random, &asking.rows);
    let question = Question { rows: model::rows(&text), ..asking };
    let Question { n, f, view, .. } = question;
    let expected = select_alone(n, f, view, &question.rows);
    let (number, choice) = ffi::select(n, f, view, &text);
    asked.calls += 1;
    count(&mut asked.cells, &question, &expected, &text);
    if fits(&expected, number, choice) {
        return Ok(());
    }
    let lines = [
        "the selection by itself".to_string(),
        format!("n {n}, f {f}, view {view}, {} rows; {}", question.rows.len(), save("rows", &text)),
        format!("text: {}", show(Some(&text))),
        format!("expected: {expected:?}"),
        format!("got: number {number}, choice {choice:x?}"),
    ];
    Err(lines.join("\n  "))
}

/// The choice counts only where the number is 0, and its entry only where it is forced.
fn fits(expected: &Result<Selection, u8>, number: u8, choice: [u64; 3]) -> bool {
    match expected {
        Err(wanted) => number == *wanted,
        Ok(selection) => {
            number == 0
                && match selection.choice {
                    Choice::Wait => choice[0] == 0,
                    Choice::Free => choice[0] == 1,
                    Choice::Forced(entry) => choice[0] == 2 && choice[1..] == entry_words(&entry),
                }
        }
    }
}

/// Any size, view and rows.
fn any(random: &mut Random) -> Question {
    let mut question = replicas::question(random);
    match random.below(20) {
        0 => question.rows.clear(),
        1 => random.shuffle(&mut question.rows),
        2 => [question.n, question.f] = [random.word() as u8, random.below(20) as u8],
        3 => question.view = random.pick(&[0, 1, u32::MAX]),
        4 if !question.rows.is_empty() => {
            let which = random.index(question.rows.len());
            question.rows.insert(which, question.rows[which]);
        }
        5 => lower_to_view_1(&mut question),
        _ => {}
    }
    question.rows.truncate(MOST_ROWS);
    question
}

/// The same rows for view 1, where no vote but a nil one is valid.
fn lower_to_view_1(question: &mut Question) {
    question.view = 1;
    question.rows.iter_mut().for_each(|row| row.head.view = 1);
}

/// All rows of the largest house, and often some more.
fn largest(random: &mut Random) -> Question {
    let (n, f, view) = (64, random.pick(&[1, 5, 13]), random.between(2, 9) as u32);
    let house = Replica { n, f, view, ..Replica::BLANK };
    let mut rows = good_rows(random, &house);
    while rows.len() < usize::from(n) {
        rows = good_rows(random, &house);
    }
    let (first, last) = (rows[0], rows[rows.len() - 1]);
    let more = random.pick(&[0, 0, 1, 6]);
    match random.below(3) {
        0 => rows.extend((n..n + more).map(|seat| Row { head: Head { seat, ..first.head }, ..first })),
        1 => rows.extend((0..more).map(|_| first)),
        _ => rows.extend((0..more).map(|_| last)),
    }
    Question { n, f, view, rows }
}

/// The rows as lines, sometimes with another line among them or behind them.
fn text(random: &mut Random, rows: &[Row]) -> Vec<u8> {
    let mut lines: Vec<Vec<u8>> = rows.iter().map(line_of).collect();
    if random.chance(15) {
        let row = rows.first().map_or(b"V\t0\t+\t1\t-\n".to_vec(), line_of);
        let at = if random.chance(50) { lines.len() } else { random.index(lines.len() + 1) };
        let other = match random.below(3) {
            0 => random.pick(&[&b"\n"[..], b"S\n", b"E\t2\n"]).to_vec(),
            1 => row[..row.len() - 1].to_vec(),
            _ => damaged_line(random, &Replica::BLANK, &row).1,
        };
        lines.insert(at, other);
    }
    lines.concat()
}

fn line_of(row: &Row) -> Vec<u8> {
    let mut line = Vec::new();
    put_row(&mut line, row.head, &row.vote);
    line.push(b'\n');
    line
}

fn count(cells: &mut Cells, question: &Question, expected: &Result<Selection, u8>, text: &[u8]) {
    let Question { n, f, view, rows } = question;
    cells.number(SELECTION, expected.as_ref().map_or_else(|number| *number, |_| 0));
    match expected {
        Ok(selection) => {
            count_step(cells, question, selection);
            let ended = lines_of(text) > rows.len() && !rows.is_empty();
            cells.add_if(rows.is_empty(), Cell::SelectNoRows);
            cells.add_if(rows.len() == 64, Cell::SelectAllRows);
            cells.add_if(ended, Cell::SelectEnded);
        }
        Err(number) => {
            cells.add_if(*number < 15 && rows.is_empty(), Cell::SelectNoRowsBad);
            cells.add_if(*number == 5 && !rows_sound(*n, *f, *view, rows), Cell::SelectView0Broken);
            cells.add_if(*number < 5 && *view == 0, Cell::SelectSizeView0);
            if *number == 15 {
                count_broken(cells, question);
            }
        }
    }
}

fn lines_of(text: &[u8]) -> usize {
    text.split_inclusive(|&byte| byte == b'\n').count()
}

fn count_step(cells: &mut Cells, question: &Question, selection: &Selection) {
    let Question { n, f, rows, .. } = question;
    cells.add(match selection.step {
        1 => Cell::SelectStep1,
        2 => Cell::SelectStep2,
        3 => Cell::SelectStep3,
        4 => Cell::SelectStep4,
        _ if selection.choice == Choice::Free => Cell::SelectStep5Free,
        _ if entries_with_2f(*n, *f, votes_of(rows)) > 1 => Cell::SelectStep5Several,
        _ => Cell::SelectStep5One,
    });
}

/// Why rows got 15, where mending one thing would have been enough.
fn count_broken(cells: &mut Cells, question: &Question) {
    let Question { n, f, view, rows } = question;
    let sound_if = |mend: &dyn Fn(&mut Vec<Row>)| {
        let mut rows = rows.clone();
        mend(&mut rows);
        rows_sound(*n, *f, *view, &rows)
    };
    cells.add_if(*n == 64 && rows.len() > 64 && sound_if(&|rows| rows.truncate(64)), Cell::SelectTooMany);
    cells.add_if(sound_if(&|rows| rows.sort_by_key(|row| row.head.seat)), Cell::SelectUnsorted);
    cells.add_if(sound_if(&|rows| rows.dedup_by_key(|row| row.head.seat)), Cell::SelectRepeated);
    cells.add_if(sound_if(&|rows| rows.retain(|row| row.head.seat < *n)), Cell::SelectHighSeat);
    let without_votes = |rows: &mut Vec<Row>| rows.iter_mut().for_each(|row| row.vote = Vote::NIL);
    cells.add_if(*view == 1 && sound_if(&without_votes), Cell::SelectView1);
}
