//! An independent second program for the rules of one agreed entry, to be compared with the first: a model of the
//! rules, questions for it, and the commands that ask another program the same.

pub mod bench;
pub mod cases;
pub mod compare;
pub mod entry;
pub mod events;
pub mod fields;
pub mod lines;
pub mod make;
pub mod message;
pub mod options;
pub mod random;
pub mod replica;
pub mod runs;
pub mod seats;
pub mod selection;
pub mod source;
pub mod tally;
pub mod trace;
pub mod twists;
pub mod values;
pub mod vote;
pub mod wild;

/// The seed where none is given.
pub const SEED: u64 = 20_210_225;
