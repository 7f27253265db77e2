/* A library that has no words to hide cells as one that has them, so that a test can be built with it: where nothing is hidden its functions are called,
   which are named former_.., and else those of a library that has words, named other_... */
#include <stddef.h>
#include <stdint.h>

#include "cuhnavel.h"

#define BYTES(x) const uint8_t *x, size_t x##_len
#define WORDS uint64_t *words, size_t words_len
#define LISTS uint16_t *map, size_t map_len, uint8_t *room, size_t room_len, uint8_t *scratch, size_t scratch_len

/* A form of Compare. */
#define COMPARE(name)                                                                                                                      \
    uint64_t former_##name(BYTES(left), BYTES(right), size_t bound, LISTS);                                                                \
    uint64_t other_##name(BYTES(left), BYTES(right), size_t bound, uint64_t left_hidden, uint64_t right_hidden, LISTS);                    \
    uint64_t name(BYTES(left), BYTES(right), size_t bound, uint64_t left_hidden, uint64_t right_hidden, LISTS) {                           \
        if ((left_hidden | right_hidden) == 0)                                                                                             \
            return former_##name(left, left_len, right, right_len, bound, map, map_len, room, room_len, scratch, scratch_len);             \
        return other_##name(left, left_len, right, right_len, bound, left_hidden, right_hidden, map, map_len, room, room_len, scratch,     \
                            scratch_len);                                                                                                  \
    }

COMPARE(cuhnavel_compare)
COMPARE(cuhnavel_compare_one_way)

uint64_t former_cuhnavel_truth(BYTES(book), BYTES(sheet), WORDS);
uint64_t other_cuhnavel_truth(BYTES(book), uint64_t hidden, BYTES(sheet), WORDS);
uint64_t cuhnavel_truth(BYTES(book), uint64_t hidden, BYTES(sheet), WORDS) {
    if (hidden == 0)
        return former_cuhnavel_truth(book, book_len, sheet, sheet_len, words, words_len);
    return other_cuhnavel_truth(book, book_len, hidden, sheet, sheet_len, words, words_len);
}

#define CLAIMED size_t entry, size_t left_cell, size_t right_cell

uint64_t former_cuhnavel_claim(BYTES(left), BYTES(right), BYTES(sheet), CLAIMED, WORDS);
uint64_t other_cuhnavel_claim(BYTES(left), BYTES(right), uint64_t left_hidden, uint64_t right_hidden, BYTES(sheet), CLAIMED, WORDS);
uint64_t cuhnavel_claim(BYTES(left), BYTES(right), uint64_t left_hidden, uint64_t right_hidden, BYTES(sheet), CLAIMED, WORDS) {
    if ((left_hidden | right_hidden) == 0)
        return former_cuhnavel_claim(left, left_len, right, right_len, sheet, sheet_len, entry, left_cell, right_cell, words, words_len);
    return other_cuhnavel_claim(left, left_len, right, right_len, left_hidden, right_hidden, sheet, sheet_len, entry, left_cell, right_cell, words,
                                words_len);
}

uint64_t former_cuhnavel_pair(const uint16_t *map, size_t map_len, size_t place, BYTES(sheet));
uint64_t other_cuhnavel_pair(const uint16_t *map, size_t map_len, size_t place, BYTES(sheet));
uint64_t cuhnavel_pair(const uint16_t *map, size_t map_len, size_t place, BYTES(sheet)) {
    if (place < map_len && map[place] == CUHNAVEL_HIDDEN)
        return other_cuhnavel_pair(map, map_len, place, sheet, sheet_len);
    return former_cuhnavel_pair(map, map_len, place, sheet, sheet_len);
}
