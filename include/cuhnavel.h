/* Cuhnavel's C interface. Link with libcapi.a, which `rt staticlib capi` writes to target/staticlib/.
 *
 * Bytes, words and map places are lent as a pointer, which is not null even where none are lent and is aligned for what it
 * points to, and their number. No function keeps a pointer, and none writes to what it takes as const. What a function writes
 * to overlaps nothing else that it is lent; on a refusal it is as it was.
 *
 * An answer is one number: refusal + 2^8 x part + 2^16 x first + 2^40 x second.
 *   refusal  0: accepted; else the number of the first refusal that applies
 *   part     what a refusal speaks of (CUHNAVEL_CALL and the names after it); 0 if accepted
 *   first,   the two values that the function gives, below 2^24 each; 0 if refused. The length of a text, which may have 32 bits,
 *   second   takes both: CUHNAVEL_LENGTH.
 */
#ifndef CUHNAVEL_H
#define CUHNAVEL_H

#include <stddef.h>
#include <stdint.h>

#ifdef __cplusplus
extern "C" {
#endif

/* The four numbers of an answer. */
#define CUHNAVEL_REFUSAL(answer) ((uint32_t)((uint64_t)(answer) & 0xff))
#define CUHNAVEL_PART(answer) ((uint32_t)((uint64_t)(answer) >> 8 & 0xff))
#define CUHNAVEL_FIRST(answer) ((uint32_t)((uint64_t)(answer) >> 16 & 0xffffff))
#define CUHNAVEL_SECOND(answer) ((uint32_t)((uint64_t)(answer) >> 40))

/* The length of a text, of 32 bits: first + 2^24 x second. */
#define CUHNAVEL_LENGTH(answer) ((uint32_t)((uint64_t)(answer) >> 16))

/* The parts that a refusal speaks of. */
#define CUHNAVEL_CALL 0       /* the call itself */
#define CUHNAVEL_LEFT_BOOK 1  /* the left or only book */
#define CUHNAVEL_RIGHT_BOOK 2 /* the right book */
#define CUHNAVEL_SHEET 3      /* the sheet */

/* Hidden cells. cuhnavel_compare, cuhnavel_compare_one_way, cuhnavel_truth and cuhnavel_claim take a word for each book, of which bit i
 * (value 2^i) hides cell i: 0 hides none. A hidden cell and all links to it, from it and between hidden cells count as absent, and nothing that
 * is written or answered depends on them: books that keep their number of cells, their version and their word, and differ in the recordings
 * of hidden cells and in links at them alone, give the same bytes. Lengths and sizes go by all cells of a book, hidden or not. A word with a bit
 * at or above its book's number of cells is refused:
 *   31 with the part of the book (CUHNAVEL_LEFT_BOOK, also of the only book, or CUHNAVEL_RIGHT_BOOK), directly after the refusals of all
 *      books given; the left word is judged first
 */

/* What a place of the map holds that has a hidden cell, and Pair's first value there. */
#define CUHNAVEL_HIDDEN 65535

/* Check a book. Accepted: first is its number of cells, second its number of links. Byte 4 of the book is its version: labels are
 * numbers of one byte in version 1, 0 to 255, and of two bytes in version 2, 0 to 65,535. In either they mean the same.
 * Refused, part CUHNAVEL_LEFT_BOOK:
 *   1  fewer than 8 bytes
 *   2  its length field is not len
 *   3  its version is neither 1 nor 2
 *   4  cells not 1 to 64, or links above 512
 *   5  its length is not 8 + 4 x cells + 3 x links in version 1, or 8 + 4 x cells + 4 x links in version 2
 * then link by link:
 *   6  a cell of the link is not in the book
 *   7  the link is not above the link before
 */
uint64_t cuhnavel_check_book(const uint8_t *bytes, size_t len);

/* Check a sheet. Accepted: first is its number of entries, second its bound. Byte 4 of the sheet is its version: the label of a step
 * has one byte in version 1 and two in version 2.
 * Refused, part CUHNAVEL_SHEET:
 *   1  fewer than 8 bytes
 *   2  its length field is not len
 *   3  its version is neither 1 nor 2
 *   8  bound above 4, or entries not 1 to 16,385
 * then entry by entry:
 *   9  the count byte is absent, 0, or reaches past the end
 *   10 the kind is above 6
 *   13 entry 0 is not of kind 0
 *   14 step count bytes are missing
 *   11 a step count is too large: above 60 in a way, above the bound in a same or differ
 *   14 the body is not exactly of the size required
 *   12 a number does not name an earlier entry
 * and after the last entry:
 *   9  bytes are left over
 */
uint64_t cuhnavel_check_sheet(const uint8_t *bytes, size_t len);

/* The bytes of stack that cuhnavel_compare and cuhnavel_compare_one_way take at most, whatever they are asked: 25,500 as measured with books of which the
 * ways are many, and 26,700 if the deepest calls of all come together, rounded up to a multiple of 4,096. tests/stack runs them on just so much. */
#define CUHNAVEL_COMPARE_STACK 32768

/* Compare: which cells of two books do the same, and what parts the others. The books may be of different versions. With n the left
 * book's number of cells and m the right one's:
 *   map      n x m places. Place i x m + j becomes 0 where left cell i and right cell j are matched, that is where no question
 *            within the bound is true at the one and false at the other; else it becomes the number of an entry of the sheet
 *            whose question is true at left cell i and false at right cell j, and has the smallest depth of all questions within
 *            the bound that are so. That is at most n x m. It becomes CUHNAVEL_HIDDEN where either cell is hidden, and nowhere else.
 *   room     at least 10 + 44 x n x m bytes, or 10 + 52 x n x m if either book is of version 2. It starts with the sheet of these
 *            questions, for the bound, which is of version 2 if either book is, else of version 1; the bytes after the sheet are as
 *            they were.
 *   scratch  at least 16 x n x m bytes. All that is lent becomes zeros.
 * Recording 0 is silent: a same or differ holds only where both ends have a nonzero recording, here as for cuhnavel_truth.
 * Of two ways that part a pair, those with fewer steps in all are taken first. Which question is taken is fixed, and with it every
 * byte of the map and the sheet: two books, a bound and two words always give the same. left_hidden and right_hidden hide cells: the
 * map and the sheet are those of the books without the hidden cells and their links, but for the places of the map that have one, and all
 * that is written and answered is the same whatever is hidden.
 * Accepted: first is the sheet's length in bytes, second the number of matched pairs.
 * Refused:
 *   20 the bound is above 4, part CUHNAVEL_CALL
 *   the left book's refusal, part CUHNAVEL_LEFT_BOOK
 *   the right book's refusal, part CUHNAVEL_RIGHT_BOOK
 *   31 left_hidden has a bit at or above n, part CUHNAVEL_LEFT_BOOK
 *   31 right_hidden has a bit at or above m, part CUHNAVEL_RIGHT_BOOK
 * then, part CUHNAVEL_CALL:
 *   21 map_len is not n x m
 *   22 room_len is below 10 + 44 x n x m, or below 10 + 52 x n x m if either book is of version 2
 *   23 scratch_len is below 16 x n x m
 * It takes at most CUHNAVEL_COMPARE_STACK bytes of stack.
 */
uint64_t cuhnavel_compare(const uint8_t *left, size_t left_len, const uint8_t *right, size_t right_len, size_t bound,
                          uint64_t left_hidden, uint64_t right_hidden, uint16_t *map, size_t map_len, uint8_t *room,
                          size_t room_len, uint8_t *scratch, size_t scratch_len);

/* Compare one-way: which cells of the right book offer all that a cell of the left one does, and perhaps more. It is as cuhnavel_compare
 * but for:
 *   map      Place i x m + j becomes 0 where left cell i is covered by right cell j, that is where every question without "not" within
 *            the bound that is true at left cell i is true at right cell j; else it becomes the number of an entry of the sheet whose
 *            question has no "not", is true at left cell i and false at right cell j, and has the smallest depth of all questions
 *            without "not" within the bound that are so. That, too, is at most n x m. CUHNAVEL_HIDDEN as there.
 *   room     No entry of the sheet is a "not".
 * Cells that are matched cover each other; cells that cover each other need not be matched. Here, too, which question is taken is fixed,
 * and all that is written and answered is the same whatever is hidden.
 * Accepted: first is the sheet's length in bytes, second the number of covered pairs.
 * Refused: as cuhnavel_compare.
 * It takes at most CUHNAVEL_COMPARE_STACK bytes of stack.
 */
uint64_t cuhnavel_compare_one_way(const uint8_t *left, size_t left_len, const uint8_t *right, size_t right_len, size_t bound,
                                  uint64_t left_hidden, uint64_t right_hidden, uint16_t *map, size_t map_len, uint8_t *room,
                                  size_t room_len, uint8_t *scratch, size_t scratch_len);

/* Truth: where the questions of a sheet are true in a book. Accepted: with q the sheet's number of entries and n the book's
 * number of cells, word k (0 to q - 1) has bit i (value 2^i) exactly when entry k is true at cell i; bits from n up are 0;
 * words from q on are as they were. Both values are 0. The book and the sheet may be of different versions. Recording 0 is silent: a
 * same or differ holds only where both ends have a nonzero recording. hidden hides cells: they and their links are not there for any entry,
 * their bits are 0 in every word, also in that of a "not" and of always true, and the words are the same whatever is hidden.
 * Refused:
 *   the book's refusal, as cuhnavel_check_book
 *   31 hidden has a bit at or above n, part CUHNAVEL_LEFT_BOOK
 *   the sheet's refusal, as cuhnavel_check_sheet
 *   24 fewer than q words, part CUHNAVEL_CALL
 */
uint64_t cuhnavel_truth(const uint8_t *book, size_t book_len, uint64_t hidden, const uint8_t *sheet, size_t sheet_len,
                        uint64_t *words, size_t words_len);

/* Claim: is an entry of a sheet true at a cell of the left book and false at a cell of the right one? Accepted: first is 1 for
 * yes, 0 for no. For either the words end as cuhnavel_truth of the right book, its word and the sheet leaves them. The books and the sheet
 * may be of different versions. left_hidden and right_hidden hide cells, as for cuhnavel_truth: the answer is no where either cell is hidden,
 * with the words written all the same, and answer and words are the same whatever is hidden.
 * Refused:
 *   the left book's refusal, part CUHNAVEL_LEFT_BOOK
 *   the right book's refusal, part CUHNAVEL_RIGHT_BOOK
 *   31 left_hidden has a bit at or above the left book's number of cells, part CUHNAVEL_LEFT_BOOK
 *   31 right_hidden has a bit at or above the right book's number of cells, part CUHNAVEL_RIGHT_BOOK
 *   the sheet's refusal, part CUHNAVEL_SHEET
 * then, part CUHNAVEL_CALL:
 *   24 fewer words than the sheet has entries
 *   25 entry is not below the sheet's number of entries
 *   26 a cell is not in its book
 */
uint64_t cuhnavel_claim(const uint8_t *left, size_t left_len, const uint8_t *right, size_t right_len, uint64_t left_hidden,
                        uint64_t right_hidden, const uint8_t *sheet, size_t sheet_len, size_t entry, size_t left_cell,
                        size_t right_cell, uint64_t *words, size_t words_len);

/* Row: the right cells that left cell i is matched with or, one-way, covered by, in a map of rows of m places. Accepted: first is how many they are.
 * Refused, part CUHNAVEL_CALL:
 *   27 m is 0 or above 64
 *   26 places i x m to i x m + m - 1 are not all in the map
 */
uint64_t cuhnavel_row(const uint16_t *map, size_t map_len, size_t m, size_t i);

/* Row's word: bit j (value 2^j) is set exactly when place i x m + j holds 0, so not where a cell is hidden. 0 where cuhnavel_row refuses. */
uint64_t cuhnavel_row_word(const uint16_t *map, size_t map_len, size_t m, size_t i);

/* Pair: the question of a sheet that parts the pair at a place of a map. Accepted: first is its number, second the byte of the
 * sheet where its entry starts; both are 0 where the pair is matched or, one-way, covered; and where a cell of it is hidden first is
 * CUHNAVEL_HIDDEN, which is no entry's number, and second is 0.
 * Refused:
 *   the sheet's refusal, as cuhnavel_check_sheet
 * then, part CUHNAVEL_CALL:
 *   26 the place is not in the map
 *   25 the number at the place is not 0, not CUHNAVEL_HIDDEN and not below the sheet's number of entries
 */
uint64_t cuhnavel_pair(const uint16_t *map, size_t map_len, size_t place, const uint8_t *sheet, size_t sheet_len);

/* Links: the links out of a cell, as a part of the book's bytes. Accepted: first is how many they are, second the byte of the
 * book where the first of them starts (0 if there are none). Each is from cell, label, to cell: 3 bytes in a book of version 1, and 4
 * in a book of version 2, where the label has two, most significant first. Byte 4 of the book tells which it is.
 * Refused:
 *   the book's refusal, as cuhnavel_check_book
 *   26 the cell is not in the book, part CUHNAVEL_CALL
 */
uint64_t cuhnavel_links(const uint8_t *book, size_t book_len, size_t cell);

/* The bytes of stack that cuhnavel_question_length and cuhnavel_question_text take at most, whatever they are asked: 164,000 and
 * 229,600 as measured with the deepest questions, rounded up to multiples of 4,096. tests/stack runs them on just so much. */
#define CUHNAVEL_QUESTION_LENGTH_STACK 167936
#define CUHNAVEL_QUESTION_TEXT_STACK 282624

/* Question length: how many bytes the text of an entry's question has that cuhnavel_question_text writes. Accepted: the answer
 * is 2^16 x the length, which CUHNAVEL_LENGTH gives.
 * Refused:
 *   the sheet's refusal, as cuhnavel_check_sheet
 * then, part CUHNAVEL_CALL:
 *   25 entry is not below the sheet's number of entries
 *   28 a chain of more than 1,024 references leads from the entry (a step refers to its test)
 *   29 the length exceeds 4,294,967,295
 * It takes at most CUHNAVEL_QUESTION_LENGTH_STACK bytes of stack.
 */
uint64_t cuhnavel_question_length(const uint8_t *sheet, size_t sheet_len, size_t entry);

/* Question text: writes the question of an entry out in full, at the room's start, in ASCII: true <.>, not !(p), and (p&q),
 * or (p|q), way <w>, same <w=v>, differ <w!=v>; a way is a dot if it has no steps, else its steps, each /label[p] with the label
 * in base ten, up to 65535. Bytes after the text are as they were. The answer is that of cuhnavel_question_length; refused, last of
 * all:
 *   30 room_len is below the length, part CUHNAVEL_CALL
 * It takes at most CUHNAVEL_QUESTION_TEXT_STACK bytes of stack.
 */
uint64_t cuhnavel_question_text(const uint8_t *sheet, size_t sheet_len, size_t entry, uint8_t *room, size_t room_len);

#ifdef __cplusplus
}
#endif

#endif
