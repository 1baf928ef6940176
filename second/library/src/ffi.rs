//! The four functions of the library as its header for C declares them. All that is unsafe stands here.

use crate::arrays::Arrays;

mod station {
    extern "C" {
        pub fn luscarembo_setup(
            n: u8,
            f: u8,
            seat: u8,
            entry_hi: u64,
            entry_lo: u64,
            scalars: *mut u64,
            ack_entries: *mut u64,
            ack_views: *mut u32,
            vote_entries: *mut u64,
            vote_masks: *mut u64,
            vote_views: *mut u32,
        ) -> u8;
        pub fn luscarembo_events(
            scalars: *mut u64,
            ack_entries: *mut u64,
            ack_views: *mut u32,
            vote_entries: *mut u64,
            vote_masks: *mut u64,
            vote_views: *mut u32,
            text: *const u8,
            text_length: usize,
            out: *mut u8,
            out_length: usize,
        ) -> usize;
        pub fn luscarembo_select(n: u8, f: u8, view: u32, text: *const u8, text_length: usize, choice: *mut u64) -> u8;
        pub fn luscarembo_write(kind: u8, words: *const u64, buf: *mut u8, buf_length: usize, length: *mut u64) -> u8;
    }
}

pub fn setup(n: u8, f: u8, seat: u8, own: [u64; 2], arrays: &mut Arrays) -> u8 {
    // SAFETY: the arrays are as long as the header wants them, and no two of them overlap.
    unsafe {
        station::luscarembo_setup(
            n,
            f,
            seat,
            own[0],
            own[1],
            arrays.scalars.as_mut_ptr(),
            arrays.ack_entries.as_mut_ptr(),
            arrays.ack_views.as_mut_ptr(),
            arrays.vote_entries.as_mut_ptr(),
            arrays.vote_masks.as_mut_ptr(),
            arrays.vote_views.as_mut_ptr(),
        )
    }
}

/// The events of a text on a replica; gives how many bytes stand at the front of `out`.
pub fn events(arrays: &mut Arrays, text: &[u8], out: &mut [u8]) -> usize {
    // SAFETY: as for setup; text and out are lent with their own lengths and do not overlap.
    unsafe {
        station::luscarembo_events(
            arrays.scalars.as_mut_ptr(),
            arrays.ack_entries.as_mut_ptr(),
            arrays.ack_views.as_mut_ptr(),
            arrays.vote_entries.as_mut_ptr(),
            arrays.vote_masks.as_mut_ptr(),
            arrays.vote_views.as_mut_ptr(),
            text.as_ptr(),
            text.len(),
            out.as_mut_ptr(),
            out.len(),
        )
    }
}

/// The selection by itself: its number and the choice.
pub fn select(n: u8, f: u8, view: u32, text: &[u8]) -> (u8, [u64; 3]) {
    let mut choice = [u64::MAX; 3];
    // SAFETY: the text is lent with its length, and the choice has the header's three words.
    let number = unsafe { station::luscarembo_select(n, f, view, text.as_ptr(), text.len(), choice.as_mut_ptr()) };
    (number, choice)
}

/// The writer: its number and the length.
pub fn write(kind: u8, words: &[u64; 13], buffer: &mut [u8]) -> (u8, u64) {
    let mut length = [u64::MAX];
    // SAFETY: the words are the header's thirteen, the buffer is lent with its length, the length is one word.
    let number = unsafe {
        station::luscarembo_write(kind, words.as_ptr(), buffer.as_mut_ptr(), buffer.len(), length.as_mut_ptr())
    };
    (number, length[0])
}
