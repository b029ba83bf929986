/* The rhythm parser's library, for C and C++. Link the static library cabi (`rt lib` in crates/cabi makes it, crates/cabi/out/libcabi.a).

   Every entry takes every text and every slice, of any length and content, checks the text itself, and returns. A text or a slice is a
   pointer to its first element and the number of its elements; where that number is 0 the pointer is not read but must not be null. Slices
   handed to one call must not overlap. Nothing is kept between calls, and calls on different slices may run side by side. There is no heap:
   a thread that calls rhythm_find wants 256 KiB of stack (on x86-64 128 KiB were enough for the heaviest sheets of bench/run).

   A sheet, its valid trees, R, D, totals, score lines and refusal numbers are those of documents 01 and 02; docs/FORMAT.md explains them,
   and docs/PROOF.md says where each promise is stated and proved. A refusal gives its number and its line (0 where it has none), zeros
   elsewhere, and keeps every slice but the work slice after refusal 11. examples/ has a program in C and one in Rust. */
#ifndef RHYTHM_H
#define RHYTHM_H

#include <stddef.h>
#include <stdint.h>

/* The most bytes that an accepted text has, and that the score text of any valid tree has: 53 + 19 for each leaf + 2 for each onset, where
   a tree has at most B + 80 * N bytes, B bars and N onsets being at most 64 and 512 (score_length and nodes_most in docs/PROOF.md). */
#define RHYTHM_TEXT_MOST 16384
#define RHYTHM_SCORE_MOST 780533

#ifdef __cplusplus
extern "C" {
#endif

/* The number of a text's refusal (1 to 8, 17 to 19) times 65,536, plus its line; 0: the text is accepted. */
uint32_t rhythm_check(const uint8_t *text, size_t text_length);

/* The required length of the work slice of rhythm_find, in 64-bit cells; 0: the text is refused. */
uint64_t rhythm_work_cells(const uint8_t *text, size_t text_length);

/* The required length of the tree slice of rhythm_find, in bytes; 0: the text is refused. */
uint64_t rhythm_tree_bytes(const uint8_t *text, size_t text_length);

/* The unit of onset i, the nearest to its time, an exact half upwards, counted from the first bar; 0 past the last onset, and where the text is
 * refused. */
uint32_t rhythm_onset_unit(const uint8_t *text, size_t text_length, size_t i);

/* The moment of bar line i, from 0, in microseconds: where the bars were tapped tap i, and else i times the bar's duration. A sheet of
   B bars has B + 1 bar lines, the last of which closes it. 0 past the last, and where the text is refused; line 0 may be at 0 too, so
   ask rhythm_check which it is. */
uint32_t rhythm_bar_line(const uint8_t *text, size_t text_length, size_t i);

/* Prices a list of bytes. answer: refusal number, line, node count, R, D, total. The number is 0 exactly when the list is a valid tree of
   the sheet, and 12 exactly when the sheet is accepted and the list is none. */
void rhythm_price(const uint8_t *text, size_t text_length, const uint8_t *list, size_t list_length, uint64_t answer[6]);

/* Writes the score lines of a list of bytes from the front of the score slice. answer: refusal number, line, byte count. 13: the slice is
   shorter than the exact text; one of RHYTHM_SCORE_MOST bytes never is. Bytes behind the text are kept.
   In a leaf's line n is 0 for a continuation, 1 for a note, 2 and 3 for a note with grace notes, and 4 for a rest: with nothing placed a
   leaf is a rest before the first onset of the piece, and a continuation behind it. */
void rhythm_write(const uint8_t *text, size_t text_length, const uint8_t *list, size_t list_length, uint8_t *score, size_t score_length,
                  uint64_t answer[3]);

/* Finds the first least tree. answer: refusal number, line, node count, R, D, total.

   0: the first `node count` bytes of the tree slice are a valid tree, the figures are its own, and no valid tree of the sheet totals less.
   Bytes behind them are kept. Of several trees with that total it is the first in dictionary order: where two first differ, the one with
   the lower rule number. So one call has one answer, whatever build gives it. Of texts that differ in the digits of the multiplier alone
   all have a tree or none has; as it grows R does not rise and D does not fall (find_slides_by_text in docs/PROOF.md).
   9, 10: the work slice, the tree slice is shorter than required. 11: no list of bytes, of any length, is a valid tree.
   After 0 and 11 the required cells at the front of the work slice are 0; what they hold before the call does not matter. Cells behind them
   are kept. */
void rhythm_find(const uint8_t *text, size_t text_length, uint8_t *tree, size_t tree_length, uint64_t *work, size_t work_length,
                 uint64_t answer[6]);

#ifdef __cplusplus
}
#endif

#endif
