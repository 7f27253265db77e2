/* A C caller of Truth, Claim, Row, Pair and Links: prints each answer taken apart, and the words. */
#include <inttypes.h>
#include <stdio.h>

#include "cuhnavel.h"
#include "example_a.h"

static void print(const char *name, uint64_t answer)
{
    printf("%s: refusal %" PRIu32 " part %" PRIu32 " first %" PRIu32 " second %" PRIu32 "\n", name,
           CUHNAVEL_REFUSAL(answer), CUHNAVEL_PART(answer), CUHNAVEL_FIRST(answer), CUHNAVEL_SECOND(answer));
}

static void print_words(const uint64_t *words, size_t count)
{
    printf("words:");
    for (size_t k = 0; k < count; k++)
        printf(" %" PRIu64, words[k]);
    printf("\n");
}

int main(void)
{
    /* Bound 1; entry 0: true; entry 1: "differ: stay, step 1"; entry 2: not entry 1. */
    const uint8_t sheet[] = {
        0, 0, 0, 21, 1, 1, 0, 3,
        1, 0,
        6, 6, 0, 1, 1, 0, 0,
        3, 1, 0, 1,
    };
    /* The same in version 2, and with label 257 in the place of 1. */
    const uint8_t sheet_2[] = {
        0, 0, 0, 22, 2, 1, 0, 3,
        1, 0,
        7, 6, 0, 1, 0, 1, 0, 0,
        3, 1, 0, 1,
    };
    const uint8_t sheet_257[] = {
        0, 0, 0, 22, 2, 1, 0, 3,
        1, 0,
        7, 6, 0, 1, 1, 1, 0, 0,
        3, 1, 0, 1,
    };
    /* A map of example A at bound 1, with entry 1 for each parted pair. */
    const uint16_t map[] = {1, 1, 1, 0, 1, 0};
    const uint16_t hidden[] = {CUHNAVEL_HIDDEN, 0, CUHNAVEL_HIDDEN, 3};
    uint64_t words[4] = {9, 9, 9, 9};

    print("truth, fewer words", cuhnavel_truth(left, sizeof left, 0, sheet, sizeof sheet, words, 2));
    print_words(words, 4);
    print("truth", cuhnavel_truth(left, sizeof left, 0, sheet, sizeof sheet, words, 4));
    print_words(words, 4);
    print("claim, entry 1 at 0 and 0",
          cuhnavel_claim(left, sizeof left, right, sizeof right, 0, 0, sheet, sizeof sheet, 1, 0, 0, words, 4));
    print_words(words, 4);
    print("claim, entry 2 at 2 and 1",
          cuhnavel_claim(left, sizeof left, right, sizeof right, 0, 0, sheet, sizeof sheet, 2, 2, 1, words, 4));
    print("claim, right cell 2",
          cuhnavel_claim(left, sizeof left, right, sizeof right, 0, 0, sheet, sizeof sheet, 1, 2, 2, words, 4));
    print("truth, book of version 2", cuhnavel_truth(left_2, sizeof left_2, 0, sheet, sizeof sheet, words, 4));
    print_words(words, 4);
    print("truth, sheet of version 2", cuhnavel_truth(left, sizeof left, 0, sheet_2, sizeof sheet_2, words, 4));
    print_words(words, 4);
    print("truth, both of version 2, label 257", cuhnavel_truth(left_2, sizeof left_2, 0, sheet_257, sizeof sheet_257, words, 4));
    print_words(words, 4);
    print("claim, all of version 2 but the right book",
          cuhnavel_claim(left_2, sizeof left_2, right, sizeof right, 0, 0, sheet_2, sizeof sheet_2, 1, 0, 0, words, 4));
    print_words(words, 4);
    print("truth, cell 2 hidden", cuhnavel_truth(left, sizeof left, 4, sheet, sizeof sheet, words, 4));
    print_words(words, 4);
    print("truth, all cells hidden", cuhnavel_truth(left, sizeof left, 7, sheet, sizeof sheet, words, 4));
    print_words(words, 4);
    print("truth, bit 3, sheet of 7 bytes", cuhnavel_truth(left, sizeof left, 8, sheet, 7, words, 4));
    print("claim, entry 2 at 0 and 0, left cell 2 hidden",
          cuhnavel_claim(left, sizeof left, right, sizeof right, 4, 0, sheet, sizeof sheet, 2, 0, 0, words, 4));
    print_words(words, 4);
    print("claim, entry 1 at 0 and 0, which is hidden",
          cuhnavel_claim(left, sizeof left, right, sizeof right, 0, 1, sheet, sizeof sheet, 1, 0, 0, words, 4));
    print_words(words, 4);
    print("claim, bit 2 of both words",
          cuhnavel_claim(left, sizeof left, right, sizeof right, 4, 4, sheet, sizeof sheet, 1, 0, 0, words, 4));
    print("claim, bit 3 of both words",
          cuhnavel_claim(left, sizeof left, right, sizeof right, 8, 8, sheet, 7, 1, 0, 0, words, 4));
    for (size_t i = 0; i < 4; i++) {
        print("row", cuhnavel_row(map, 6, 2, i));
        printf("word: %" PRIu64 "\n", cuhnavel_row_word(map, 6, 2, i));
    }
    print("pair, place 0", cuhnavel_pair(map, 6, 0, sheet, sizeof sheet));
    print("pair, place 3", cuhnavel_pair(map, 6, 3, sheet, sizeof sheet));
    print("pair, place 6", cuhnavel_pair(map, 6, 6, sheet, sizeof sheet));
    print("pair, place 0, sheet of version 2", cuhnavel_pair(map, 6, 0, sheet_2, sizeof sheet_2));
    print("pair, hidden", cuhnavel_pair(hidden, 4, 2, sheet, sizeof sheet));
    print("pair, entry 3", cuhnavel_pair(hidden, 4, 3, sheet, sizeof sheet));
    print("row with hidden places", cuhnavel_row(hidden, 4, 4, 0));
    printf("word: %" PRIu64 "\n", cuhnavel_row_word(hidden, 4, 4, 0));
    print("links of cell 0", cuhnavel_links(left, sizeof left, 0));
    print("links of cell 2", cuhnavel_links(left, sizeof left, 2));
    print("links of cell 3", cuhnavel_links(left, sizeof left, 3));
    print("links of cell 0, version 2", cuhnavel_links(left_2, sizeof left_2, 0));
    return 0;
}
