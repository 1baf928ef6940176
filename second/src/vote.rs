//! Votes and the certificates they carry.

use crate::entry::{well_formed, Entry};
use crate::seats::seats_below;

/// A vote; where `cast` is false it is nil and the other fields do not count.
#[derive(Clone, Copy, Debug, PartialEq, Eq)]
pub struct Vote {
    pub cast: bool,
    pub view: u32,
    pub entry: Entry,
    pub mask: u64,
    pub verified: bool,
}

impl Vote {
    pub const NIL: Vote = Vote { cast: false, view: 0, entry: [0; 16], mask: 0, verified: false };

    /// Whether this is a valid vote for `view`, in a house of n seats and at most f faulty ones.
    pub fn is_valid(&self, n: u8, f: u8, view: u32) -> bool {
        !self.cast
            || self.verified
                && self.view < view
                && certificate_good(n, f, self.view, self.mask)
                && well_formed(&self.entry)
    }
}

/// Whether a mask is a good certificate for a view; for view 0 none is.
pub fn certificate_good(n: u8, f: u8, view: u32, mask: u64) -> bool {
    match view {
        0 => false,
        1 => mask == 0,
        _ => mask & !seats_below(n) == 0 && mask.count_ones() > u32::from(f),
    }
}
