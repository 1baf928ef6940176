//! How often each number was given and each cell was filled by random questions.

use std::marker::PhantomData;

/// The cells of one command: the numbers that each kind of answer can have, and cells with a name.
pub trait Tallied: Copy {
    const KINDS: &'static [&'static str];
    /// For each kind the numbers that are wanted.
    const POSSIBLE: &'static [&'static [u8]];
    const NAMES: &'static [&'static str];

    fn place(self) -> usize;
}

/// Makes the enum `Cell` of named cells, for the kinds and numbers given first.
#[macro_export]
macro_rules! cells {
    ($kinds:expr, $possible:expr; $($cell:ident $name:literal,)*) => {
        #[derive(Clone, Copy, PartialEq, Eq)]
        pub enum Cell { $($cell,)* }

        impl $crate::tally::Tallied for Cell {
            const KINDS: &'static [&'static str] = &$kinds;
            const POSSIBLE: &'static [&'static [u8]] = &$possible;
            const NAMES: &'static [&'static str] = &[$($name,)*];

            fn place(self) -> usize {
                self as usize
            }
        }
    };
}

pub struct Tally<C> {
    numbers: Vec<[u64; 22]>,
    others: Vec<u64>,
    cells: PhantomData<C>,
}

impl<C: Tallied> Default for Tally<C> {
    fn default() -> Tally<C> {
        Tally { numbers: vec![[0; 22]; C::KINDS.len()], others: vec![0; C::NAMES.len()], cells: PhantomData }
    }
}

impl<C: Tallied> Tally<C> {
    pub fn number(&mut self, kind: usize, number: u8) {
        self.numbers[kind][usize::from(number)] += 1;
    }

    pub fn add(&mut self, cell: C) {
        self.others[cell.place()] += 1;
    }

    pub fn add_if(&mut self, holds: bool, cell: C) {
        self.others[cell.place()] += u64::from(holds);
    }

    pub fn total(&self) -> usize {
        C::POSSIBLE.iter().map(|numbers| numbers.len()).sum::<usize>() + C::NAMES.len()
    }

    /// The names of the cells that nothing filled.
    pub fn empty(&self) -> Vec<String> {
        let numbers = C::KINDS.iter().enumerate().flat_map(|(kind, name)| {
            let empty = C::POSSIBLE[kind].iter().filter(move |&&number| self.numbers[kind][usize::from(number)] == 0);
            empty.map(move |number| format!("{name} with {number}"))
        });
        let named = C::NAMES.iter().zip(&self.others).filter(|(_, &count)| count == 0);
        numbers.chain(named.map(|(name, _)| name.to_string())).collect()
    }

    /// The table of all cells: a line per kind, then the others two to a line.
    pub fn print(&self) {
        let width = C::KINDS.iter().map(|name| name.len()).max().unwrap_or(0);
        for (kind, name) in C::KINDS.iter().enumerate() {
            let counts = C::POSSIBLE[kind]
                .iter()
                .map(|&number| format!("{number}: {}", self.numbers[kind][usize::from(number)]));
            println!("{name:>width$}  {}", counts.collect::<Vec<_>>().join("  "));
        }
        for (names, counts) in C::NAMES.chunks(2).zip(self.others.chunks(2)) {
            let columns = names.iter().zip(counts).map(|(name, count)| format!("{name:<48} {count:>8}"));
            println!("{}", columns.collect::<Vec<_>>().join("   "));
        }
    }
}

/// A number with commas between its thousands.
pub fn grouped(number: u64) -> String {
    let digits = number.to_string();
    let parts: Vec<&str> =
        digits.as_bytes().rchunks(3).rev().map(|part| std::str::from_utf8(part).unwrap_or("")).collect();
    parts.join(",")
}
