/* The segment manager on lent words; crates/segments_c has the calls and their proofs.
 *
 * A manager is 131 words: arena start, arena size, how many segments there are, then 64 rows of start and length, the rows in
 * use first. `out` is four words, and each call that has it sets all four: those named below, and zero elsewhere and on a
 * refusal.
 *
 * Each call answers 0, or the number of its refusal: 1 BadTable (the words are no sound manager, or a length is not 131 or 4),
 * 3 BadAddress, 4 BadRange, 8 NoSpace, 9 SegmentReserved, 10 InvalidSplitPoint, 11 NotReserved, 21 TableFull; of several the
 * lowest. A refusal leaves the 131 words as they were, and a wrong length leaves `out` as it was too.
 *
 * The two slices of a call must not overlap. */
#ifndef SEGMENTS_H
#define SEGMENTS_H

#include <stddef.h>
#include <stdint.h>

#define SEGMENTS_WORDS 131
#define SEGMENTS_OUT 4

#ifdef __cplusplus
extern "C" {
#endif

/* Makes a manager with no segments over the arena of `size` bytes from `start` on; refuses 1, 3 and 4. */
uint64_t manager_new(uint64_t *words, size_t words_len, uint64_t start, uint64_t size);

/* Reserves `len` bytes at the lowest free start, out[0], and says in out[1] how often the search started over; refuses 1, 8 and 21. */
uint64_t manager_reserve(uint64_t *words, size_t words_len, uint64_t len, uint64_t *out, size_t out_len);

/* Reserves the segment of `len` bytes from `start` on, in the arena or not; refuses 1, 3, 4, 9 and 21. */
uint64_t manager_mark(uint64_t *words, size_t words_len, uint64_t start, uint64_t len);

/* Gives the segment up and sets out[0] to 1 if it was held exactly so, else to 0; refuses 1, 3 and 4. */
uint64_t manager_release(uint64_t *words, size_t words_len, uint64_t start, uint64_t len, uint64_t *out, size_t out_len);

/* Replaces the segment by the two that meet at `at`, start and length of the lower and of the upper in out[0] to out[3]; refuses 1,
 * 3, 4, 10, 11 and 21. */
uint64_t manager_split(uint64_t *words, size_t words_len, uint64_t start, uint64_t len, uint64_t at, uint64_t *out, size_t out_len);

#ifdef __cplusplus
}
#endif

#endif
