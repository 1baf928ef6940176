//! Seats, views and how many of them are wanted.

/// The number of seats a table of rows has room for.
pub const ROOM: usize = 64;

/// "5f − 1 ≤ n": n seats bear f faulty ones. The rules divide; here nothing is divided, so that the two can differ.
fn bears(n: u8, f: u8) -> bool {
    5 * u16::from(f) <= u16::from(n) + 1
}

/// The largest f that n seats bear, for the houses that are made here.
pub fn largest_f(n: u8) -> u8 {
    (1..=n).rev().find(|&f| bears(n, f)).unwrap_or(0)
}

/// Setup's 1 and 2, or 0.
pub fn size_number(n: u8, f: u8) -> u8 {
    if !(4..=64).contains(&n) {
        1
    } else if f == 0 || !bears(n, f) {
        2
    } else {
        0
    }
}

/// "The leader of view v is seat v mod n."
pub fn leader(view: u32, n: u8) -> u8 {
    (view % u32::from(n)) as u8
}

/// The bits of the seats below n.
pub fn seats_below(n: u8) -> u64 {
    if n >= 64 {
        u64::MAX
    } else {
        (1 << n) - 1
    }
}
