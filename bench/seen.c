/* What a library answers and leaves, call by call, as one number: linked into a test in the place of the library's functions (by the linker's --wrap), each
   of which it calls. When the test ends the last line on standard error says how many calls there were, and the number. */
#include <stdint.h>
#include <stdio.h>
#include <stdlib.h>
#include <string.h>

/* Of a longer list only so many bytes count. */
#define MOST ((size_t)1 << 20)

static uint64_t calls, sum = 14695981039346656037u;

static void report(void) { fprintf(stderr, "seen %llu calls %016llx\n", (unsigned long long)calls, (unsigned long long)sum); }

static void add(uint64_t word) { sum = (sum ^ word) * 1099511628211u ^ sum >> 29; }

static void add_list(const void *list, size_t size) {
    const unsigned char *bytes = list;
    add(size);
    for (size_t at = 0; at < size && at < MOST; at += 8) {
        uint64_t word = 0;
        memcpy(&word, bytes + at, size - at < 8 ? size - at : 8);
        add(word);
    }
}

static uint64_t seen(uint64_t answer) {
    if (calls++ == 0)
        atexit(report);
    add(answer);
    return answer;
}

/* A function of the library without lists that it writes to: its parameters and its arguments. */
#define PLAIN(name, parameters, arguments)                                                                                                                                                                                                     \
    uint64_t __real_##name parameters;                                                                                                                                                                                                         \
    uint64_t __wrap_##name parameters { return seen(__real_##name arguments); }

#define BYTES(x) const uint8_t *x, size_t x##_len

PLAIN(cuhnavel_check_book, (BYTES(book)), (book, book_len))
PLAIN(cuhnavel_check_sheet, (BYTES(sheet)), (sheet, sheet_len))
PLAIN(cuhnavel_links, (BYTES(book), size_t cell), (book, book_len, cell))
PLAIN(cuhnavel_row, (const uint16_t *map, size_t map_len, size_t m, size_t i), (map, map_len, m, i))
PLAIN(cuhnavel_row_word, (const uint16_t *map, size_t map_len, size_t m, size_t i), (map, map_len, m, i))
PLAIN(cuhnavel_pair, (const uint16_t *map, size_t map_len, size_t place, BYTES(sheet)), (map, map_len, place, sheet, sheet_len))
PLAIN(cuhnavel_question_length, (BYTES(sheet), size_t entry), (sheet, sheet_len, entry))

uint64_t __real_cuhnavel_truth(BYTES(book), uint64_t hidden, BYTES(sheet), uint64_t *words, size_t words_len);
uint64_t __wrap_cuhnavel_truth(BYTES(book), uint64_t hidden, BYTES(sheet), uint64_t *words, size_t words_len) {
    uint64_t answer = seen(__real_cuhnavel_truth(book, book_len, hidden, sheet, sheet_len, words, words_len));
    add_list(words, 8 * words_len);
    return answer;
}

uint64_t __real_cuhnavel_claim(BYTES(left), BYTES(right), uint64_t left_hidden, uint64_t right_hidden, BYTES(sheet), size_t entry, size_t left_cell, size_t right_cell, uint64_t *words, size_t words_len);
uint64_t __wrap_cuhnavel_claim(BYTES(left), BYTES(right), uint64_t left_hidden, uint64_t right_hidden, BYTES(sheet), size_t entry, size_t left_cell, size_t right_cell, uint64_t *words, size_t words_len) {
    uint64_t answer = seen(__real_cuhnavel_claim(left, left_len, right, right_len, left_hidden, right_hidden, sheet, sheet_len, entry, left_cell, right_cell, words, words_len));
    add_list(words, 8 * words_len);
    return answer;
}

/* A form of Compare. */
#define COMPARE(name)                                                                                                                                                                                                                          \
    uint64_t __real_##name(BYTES(left), BYTES(right), size_t bound, uint64_t left_hidden, uint64_t right_hidden, uint16_t *map, size_t map_len, uint8_t *room, size_t room_len, uint8_t *scratch, size_t scratch_len);                                                                      \
    uint64_t __wrap_##name(BYTES(left), BYTES(right), size_t bound, uint64_t left_hidden, uint64_t right_hidden, uint16_t *map, size_t map_len, uint8_t *room, size_t room_len, uint8_t *scratch, size_t scratch_len) {                                                                     \
        uint64_t answer = seen(__real_##name(left, left_len, right, right_len, bound, left_hidden, right_hidden, map, map_len, room, room_len, scratch, scratch_len));                                                                                                    \
        add_list(map, 2 * map_len);                                                                                                                                                                                                            \
        add_list(room, room_len);                                                                                                                                                                                                              \
        add_list(scratch, scratch_len);                                                                                                                                                                                                        \
        return answer;                                                                                                                                                                                                                         \
    }

COMPARE(cuhnavel_compare)
COMPARE(cuhnavel_compare_one_way)

uint64_t __real_cuhnavel_question_text(BYTES(sheet), size_t entry, uint8_t *room, size_t room_len);
uint64_t __wrap_cuhnavel_question_text(BYTES(sheet), size_t entry, uint8_t *room, size_t room_len) {
    uint64_t answer = seen(__real_cuhnavel_question_text(sheet, sheet_len, entry, room, room_len));
    add_list(room, room_len);
    return answer;
}
