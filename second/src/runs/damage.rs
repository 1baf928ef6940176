//! Well-formed lines, damaged in every way that the reader has to refuse.

use crate::lines::{put, read};
use crate::message::Message;
use crate::random::Random;
use crate::replica::Replica;
use crate::runs::cells::Cell;
use crate::runs::script::{put_opening, Script};
use crate::twists::likely_message;

/// The classes of damage to a line that still has its LF.
const CLASSES: [Cell; 25] = [
    Cell::DamagedKind,
    Cell::DamagedLowerKind,
    Cell::DamagedFieldMissing,
    Cell::DamagedFieldExtra,
    Cell::DamagedFieldEmpty,
    Cell::DamagedFieldCut,
    Cell::DamagedFieldLong,
    Cell::DamagedTabAtEnd,
    Cell::DamagedTabAtStart,
    Cell::DamagedSpace,
    Cell::DamagedZero,
    Cell::DamagedSign,
    Cell::DamagedSeat100,
    Cell::DamagedView,
    Cell::DamagedCount65,
    Cell::DamagedUppercase,
    Cell::DamagedDigit,
    Cell::DamagedMark,
    Cell::DamagedCr,
    Cell::DamagedBlankAtEnd,
    Cell::DamagedNul,
    Cell::DamagedBlankLine,
    Cell::DamagedOpening,
    Cell::DamagedLong,
    Cell::DamagedNoise,
];

/// Writes one damaged line.
pub fn write(script: &mut Script) {
    let line = any_line(script);
    let line = damaged(script, &line);
    script.write(&line);
}

/// Writes a line without its LF, which has to be the last.
pub fn write_last(script: &mut Script) {
    let mut line = any_line(script);
    line.pop();
    script.cells.add(Cell::DamagedNoLf);
    script.write(&line);
}

fn any_line(script: &mut Script) -> Vec<u8> {
    let view = script.replica.view;
    let message = match script.random.below(10) {
        0 => Message::Enter { view },
        _ => likely_message(&mut script.random, &script.replica),
    };
    let mut line = Vec::new();
    put(&mut line, &message);
    line.push(b'\n');
    line
}

/// This line with damage that leaves no message.
pub fn damaged(script: &mut Script, line: &[u8]) -> Vec<u8> {
    let (class, line) = damaged_line(&mut script.random, &script.replica, line);
    script.cells.add(class);
    line
}

/// The same with the class of the damage; one that the line cannot take is changed for another.
pub fn damaged_line(random: &mut Random, replica: &Replica, line: &[u8]) -> (Cell, Vec<u8>) {
    loop {
        let class = random.pick(&CLASSES);
        let mut opening = Vec::new();
        put_opening(&mut opening, replica, false);
        let line = damage(random, class, line, &opening);
        if read(&line).is_none() {
            return (class, line);
        }
    }
}

fn damage(random: &mut Random, class: Cell, line: &[u8], opening: &[u8]) -> Vec<u8> {
    match class {
        Cell::DamagedBlankLine => b"\n".to_vec(),
        Cell::DamagedOpening => opening.to_vec(),
        Cell::DamagedLong => long_line(random, line),
        Cell::DamagedNoise => noise_line(random),
        _ => {
            let text = line.strip_suffix(b"\n").unwrap_or(line);
            let mut fields: Vec<Vec<u8>> = text.split(|&byte| byte == b'\t').map(<[u8]>::to_vec).collect();
            damage_fields(random, class, &mut fields);
            let mut line = fields.join(&b'\t');
            damage_whole(random, class, &mut line);
            line.push(b'\n');
            line
        }
    }
}

/// Damage to one field, or to their number.
fn damage_fields(random: &mut Random, class: Cell, fields: &mut Vec<Vec<u8>>) {
    let which = random.index(fields.len());
    let place = random.index(fields[which].len().max(1));
    let numeric = random.pick(&[1, 3, 4, 5]);
    let hexes = fields.iter().position(|field| field.len() >= 16);
    match class {
        Cell::DamagedKind => fields[0] = random.pick(&[&b""[..], b"B", b"X", b"PP", b"0", b" A", b"\xc3\x84"]).to_vec(),
        Cell::DamagedLowerKind => fields[0].make_ascii_lowercase(),
        Cell::DamagedFieldMissing => drop(fields.remove(which)),
        Cell::DamagedFieldExtra => fields.insert(which, fields[which].clone()),
        Cell::DamagedFieldEmpty => fields[which].clear(),
        Cell::DamagedFieldCut if !fields[which].is_empty() => drop(fields[which].remove(place)),
        Cell::DamagedFieldLong if !fields[which].is_empty() => {
            let byte = fields[which][place];
            fields[which].insert(place, byte);
        }
        Cell::DamagedZero => set(fields, numeric, |field| field.insert(0, b'0')),
        Cell::DamagedSign => {
            let sign = random.pick(b"+- ");
            set(fields, numeric, |field| field.insert(0, sign));
        }
        Cell::DamagedSeat100 => {
            let seat = random.pick(&["100", "101", "255", "256", "257", "999", "4294967296", "18446744073709551616"]);
            set(fields, 1, |field| *field = seat.into());
        }
        Cell::DamagedView => {
            let view = random.pick(&[
                "4294967296",
                "4294967297",
                "9999999999",
                "18446744073709551617",
                "99999999999999999999999",
            ]);
            set(fields, random.pick(&[3, 3, 4]), |field| *field = view.into());
        }
        Cell::DamagedCount65 if fields[0] == b"Q" => {
            let count = random.pick(&["65", "66", "99", "100", "256", "260", "4294967296"]);
            set(fields, 5, |field| *field = count.into());
        }
        Cell::DamagedUppercase => hexes.into_iter().for_each(|at| {
            let digit = random.index(fields[at].len());
            fields[at][digit] = random.pick(b"ABCDEF");
        }),
        Cell::DamagedDigit => hexes.into_iter().for_each(|at| {
            let digit = random.index(fields[at].len());
            fields[at][digit] = random.pick(b"gx/:`@ \xe1");
        }),
        Cell::DamagedMark => {
            let at = if fields.len() == 8 { random.pick(&[2, 7]) } else { 2 };
            let mark = random.pick(&[&b""[..], b"*", b"++", b"+-", b"--", b"1", b" +"]);
            set(fields, at, |field| *field = mark.to_vec());
        }
        _ => {}
    }
}

/// Damage that does not look at fields.
fn damage_whole(random: &mut Random, class: Cell, line: &mut Vec<u8>) {
    match class {
        Cell::DamagedTabAtEnd => line.push(b'\t'),
        Cell::DamagedTabAtStart => line.insert(0, b'\t'),
        Cell::DamagedCr => line.push(b'\r'),
        Cell::DamagedBlankAtEnd => line.push(b' '),
        Cell::DamagedNul => line.insert(random.index(line.len() + 1), 0),
        Cell::DamagedSpace => {
            let tabs: Vec<usize> = (0..line.len()).filter(|&at| line[at] == b'\t').collect();
            if !tabs.is_empty() {
                line[random.pick(&tabs)] = b' ';
            }
        }
        _ => {}
    }
}

fn set(fields: &mut [Vec<u8>], at: usize, change: impl FnOnce(&mut Vec<u8>)) {
    if let Some(field) = fields.get_mut(at) {
        change(field);
    }
}

/// A line that begins as it should and goes on far too long.
pub fn long_line(random: &mut Random, line: &[u8]) -> Vec<u8> {
    let length = match random.below(20) {
        0 => random.between(60_000, 200_000),
        1..=5 => random.between(300, 5_000),
        _ => random.between(81, 120),
    };
    let mut long = line.strip_suffix(b"\n").unwrap_or(line).to_vec();
    long.resize((length as usize).max(long.len() + 1), random.pick(b"0+\t A\0"));
    long.push(b'\n');
    long
}

fn noise_line(random: &mut Random) -> Vec<u8> {
    let length = random.between(1, 120);
    let mut line: Vec<u8> =
        (0..length).map(|_| random.word() as u8).map(|byte| if byte == b'\n' { 0 } else { byte }).collect();
    line.push(b'\n');
    line
}
