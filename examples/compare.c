/* Compares two book files and prints, for each old cell, its partners and the questions that part it from the other new cells; or, one-way,
 * the new cells that cover it, which may offer more. A question is written out in full, unless it is too long to be read.
 *
 *     cc -I include examples/compare.c target/staticlib/libcapi.a -o compare
 *     ./compare 1 examples/a-left.book examples/a-right.book
 *     ./compare 1 examples/a-left.book examples/a-right.book one-way
 */
#include <stdbool.h>
#include <stdio.h>
#include <stdlib.h>
#include <string.h>

#include "cuhnavel.h"

enum { CELLS = 64, BOOK = 8 + 4 * CELLS + 4 * 512, PAIRS = CELLS * CELLS }; /* the most, of a book of version 2 */

static uint8_t left[BOOK + 1], right[BOOK + 1]; /* a byte more, so that a longer file is seen to be one */
static uint16_t map[PAIRS];
static uint8_t room[10 + 52 * PAIRS], scratch[16 * PAIRS];
static uint8_t text[1000]; /* a longer question is not printed */

static size_t load(const char *name, uint8_t *bytes)
{
    FILE *file = fopen(name, "rb");
    size_t size = file ? fread(bytes, 1, BOOK + 1, file) : 0;
    if (!file || ferror(file)) { /* a folder can be opened, but not read */
        perror(name);
        exit(2);
    }
    fclose(file);
    return size;
}

/* Prints a question of the sheet in the room. Entries that are named twice are written twice, so a text may have gigabytes: its length
 * is asked first. */
static void print_question(size_t sheet_len, size_t entry)
{
    uint64_t answer = cuhnavel_question_length(room, sheet_len, entry);
    uint32_t length = CUHNAVEL_LENGTH(answer);
    if (CUHNAVEL_REFUSAL(answer) != 0)
        printf("a text that is refused: %u\n", CUHNAVEL_REFUSAL(answer));
    else if (length > sizeof text)
        printf("a text of %u bytes\n", length);
    else {
        cuhnavel_question_text(room, sheet_len, entry, text, sizeof text);
        printf("%.*s\n", (int)length, (const char *)text);
    }
}

int main(int count, char **words)
{
    char *end = NULL;
    bool one_way = count == 5 && strcmp(words[4], "one-way") == 0, right_count = count == 4 || one_way;
    size_t bound = right_count ? strtoul(words[1], &end, 10) : 0;
    if (!right_count || end == words[1] || *end != '\0') {
        fprintf(stderr, "compare: give a bound, which is a number, and two book files, and perhaps one-way\n");
        return 2;
    }
    size_t left_len = load(words[2], left), right_len = load(words[3], right);

    /* The map has a place for each pair, so the cells are counted first. A refused book counts 0 here; Compare says why. */
    size_t n = CUHNAVEL_FIRST(cuhnavel_check_book(left, left_len));
    size_t m = CUHNAVEL_FIRST(cuhnavel_check_book(right, right_len)); /* nothing is hidden: the two words are 0 */
    uint64_t answer = (one_way ? cuhnavel_compare_one_way : cuhnavel_compare)(left, left_len, right, right_len, bound, 0, 0, map, n * m,
                                                                              room, sizeof room, scratch, sizeof scratch);
    if (CUHNAVEL_REFUSAL(answer) != 0) {
        printf("refused: %u, part %u\n", CUHNAVEL_REFUSAL(answer), CUHNAVEL_PART(answer));
        return 1;
    }

    size_t sheet_len = CUHNAVEL_FIRST(answer);
    printf("%u of %zu pairs are %s; the sheet has %zu bytes\n", CUHNAVEL_SECOND(answer), n * m, one_way ? "covered" : "matched", sheet_len);
    for (size_t i = 0; i < n; i++)
        for (size_t j = 0; j < m; j++) {
            uint64_t pair = cuhnavel_pair(map, n * m, i * m + j, room, sheet_len);
            if (CUHNAVEL_FIRST(pair) == 0)
                printf(one_way ? "old %zu is covered by new %zu\n" : "old %zu and new %zu are matched\n", i, j);
            else {
                printf("old %zu and new %zu are parted by question %u, at byte %u of the sheet: ", i, j, CUHNAVEL_FIRST(pair), CUHNAVEL_SECOND(pair));
                print_question(sheet_len, CUHNAVEL_FIRST(pair));
            }
        }
    return 0;
}
