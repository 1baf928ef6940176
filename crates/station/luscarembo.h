/* The library's functions for C. Link target/staticlib/libstation.a: test.sh makes it of the crate station_c, whose archive `rt lib`
   writes in crates/station_c as out/libstation_c.a.

   A replica is six arrays that the caller keeps and does not read or write by itself:
     scalars       22 words: n, f, seat, stage, decided, view; of its vote cast, verified, view, entry (2 words), mask;
                   decision (2), chosen (2), confirmed, own entry (2); of the vote rows filled, cast, verified
     ack_entries   128 words, two a seat    ack_views   64 views
     vote_entries  128 words, two a seat    vote_masks  64 masks    vote_views  64 views
   An entry is two words, its bytes 0 to 7 and 8 to 15, the first byte highest. A word that is too large for what it stands for
   counts by its lowest bits. A slice is a pointer and a length. No pointer is null, not even of an empty slice, and no two of
   the arrays and slices of one call overlap. */
#ifndef LUSCAREMBO_H
#define LUSCAREMBO_H

#include <stddef.h>
#include <stdint.h>

/* Setup. The answer is its number: 0, and the arrays are a fresh replica; or 1 to 4, and they are the blank one. 4: the entry's
   bytes 0 to 11 are not one or more of 0x21 to 0x7E and then only 0x20. */
uint8_t luscarembo_setup(uint8_t n, uint8_t f, uint8_t seat, uint64_t entry_hi, uint64_t entry_lo,
                         uint64_t scalars[22], uint64_t ack_entries[128], uint32_t ack_views[64],
                         uint64_t vote_entries[128], uint64_t vote_masks[64], uint32_t vote_views[64]);

/* The events of a text: whole lines as `trace` takes them, a Q with its rows behind it. What `trace` would print of them, event
   numbers from 1, goes to the front of out (no fewer than 6,000 bytes, or nothing is done); the answer is how many bytes that is.
   Lines are taken while out has 6,000 bytes left: 6,000 for each line are always enough. A last line without LF is not taken,
   and a Q whose rows do not all stand in the text changes and prints nothing. The arrays are then the replica after the events of
   the lines that were taken. These are all lines of a text that ends with LF, where out has 6,000 bytes left behind the answer. */
size_t luscarembo_events(uint64_t scalars[22], uint64_t ack_entries[128], uint32_t ack_views[64],
                         uint64_t vote_entries[128], uint64_t vote_masks[64], uint32_t vote_views[64],
                         const uint8_t *text, size_t text_length, uint8_t *out, size_t out_length);

/* The selection by itself over rows given as V lines; a line that is none ends them. The answer is its number; where it is 0,
   choice[0] is 0 to wait, 1 for free, 2 for forced to the entry choice[1], choice[2]. All that is not named is 0. */
uint8_t luscarembo_select(uint8_t n, uint8_t f, uint32_t view, const uint8_t *text, size_t text_length, uint64_t choice[3]);

/* The line of a message of a kind (the letter of its line; any other is an S), from words: seat, mark, view, entry (2), mask,
   count; of a vote cast, mark, view, entry (2), mask. A mark or a flag is 1 or 0. The answer is the writer's number; length[0]
   is how long the line is. */
uint8_t luscarembo_write(uint8_t kind, const uint64_t words[13], uint8_t *buf, size_t buf_length, uint64_t length[1]);

#endif
