/* A C caller of Compare and its one-way form: prints each answer taken apart, but for the sheet's length and which entries the map names, which
   examples/compare.c prints. */
#include <inttypes.h>
#include <stdio.h>
#include <string.h>

#include "cuhnavel.h"
#include "example_a.h"

#define PAIRS 6
#define ROOM (10 + 44 * PAIRS)
#define ROOM_2 (10 + 52 * PAIRS) /* if a book is of version 2 */
#define SCRATCH (16 * PAIRS)

static uint16_t map[PAIRS + 1];
static uint8_t room[ROOM_2 + 1];
static uint8_t scratch[SCRATCH + 1];

/* The two forms, and what a pair is called that no question parts. */
static const struct form {
    const char *name, *stays;
    uint64_t (*compare)(const uint8_t *, size_t, const uint8_t *, size_t, size_t, uint64_t, uint64_t, uint16_t *, size_t, uint8_t *, size_t,
                        uint8_t *, size_t);
} forms[] = {
    {"compare", "matched", cuhnavel_compare},
    {"compare one-way", "covered", cuhnavel_compare_one_way},
};

static void refused(const char *name, uint64_t answer)
{
    printf("%s: refusal %" PRIu32 " part %" PRIu32 "\n", name, CUHNAVEL_REFUSAL(answer), CUHNAVEL_PART(answer));
}

/* How many of the bytes hold this value. */
static size_t count(const uint8_t *bytes, size_t len, uint8_t value)
{
    size_t many = 0;
    for (size_t i = 0; i < len; i++)
        many += bytes[i] == value;
    return many;
}

/* Compares the left book, in one of its versions and with some cells hidden, with as much room as this takes. */
static void compare(const struct form *form, const uint8_t *one, size_t one_len, size_t room_len, size_t bound, uint64_t hidden)
{
    memset(map, 0xff, sizeof map);
    memset(room, 0xff, sizeof room);
    memset(scratch, 0xff, sizeof scratch);
    uint64_t answer = form->compare(one, one_len, right, sizeof right, bound, hidden, 0, map, PAIRS, room, room_len, scratch, SCRATCH);
    size_t length = CUHNAVEL_FIRST(answer);
    uint64_t check = cuhnavel_check_sheet(room, length);

    if (hidden != 0)
        printf("hidden %" PRIu64 ", ", hidden);
    printf("left of version %u, bound %zu: refusal %" PRIu32 ", %s %" PRIu32 "; sheet of version %u, its check: refusal %" PRIu32
           ", bound %" PRIu32 "\n",
           one[4], bound, CUHNAVEL_REFUSAL(answer), form->stays, CUHNAVEL_SECOND(answer), room[4], CUHNAVEL_REFUSAL(check),
           CUHNAVEL_SECOND(check));
    for (size_t i = 0; i < 3; i++)
        printf("row %zu: count %" PRIu32 " word %" PRIu64 "\n", i, CUHNAVEL_FIRST(cuhnavel_row(map, PAIRS, 2, i)),
               cuhnavel_row_word(map, PAIRS, 2, i));
    uint64_t words[4 * PAIRS + 1];
    for (size_t place = 0; place < PAIRS; place++) {
        if (map[place] == 0)
            continue;
        uint64_t pair = cuhnavel_pair(map, PAIRS, place, room, length);
        size_t entry = map[place] == CUHNAVEL_HIDDEN ? 0 : map[place];
        uint64_t claim = cuhnavel_claim(one, one_len, right, sizeof right, hidden, 0, room, length, entry, place / 2, place % 2,
                                        words, 4 * PAIRS + 1);
        if (CUHNAVEL_FIRST(pair) == CUHNAVEL_HIDDEN)
            printf("a cell is hidden; ");
        printf("claim of left %zu, right %zu: %" PRIu32 "\n", place / 2, place % 2, CUHNAVEL_FIRST(claim));
    }
    printf("bytes after the sheet as they were: %s; zeros in the scratch: %zu; map, room and scratch beyond: %x %x %x\n",
           count(room + length, room_len - length, 0xff) == room_len - length ? "yes" : "no", count(scratch, SCRATCH, 0), map[PAIRS],
           room[room_len], scratch[SCRATCH]);
}

/* What a form declines. */
static void refusals(const struct form *form)
{
    uint8_t other[sizeof left];

    memset(room, 0xff, sizeof room);
    refused("bound 5", form->compare(left, sizeof left, right, sizeof right, 5, 0, 0, map, PAIRS, room, ROOM, scratch, SCRATCH));
    refused("bound 256", form->compare(left, sizeof left, right, sizeof right, 256, 0, 0, map, PAIRS, room, ROOM, scratch, SCRATCH));
    memcpy(other, left, sizeof left);
    other[4] = 3;
    refused("left of version 3", form->compare(other, sizeof left, right, 7, 1, 0, 0, map, PAIRS, room, ROOM, scratch, SCRATCH));
    refused("right of 7 bytes", form->compare(left, sizeof left, right, 7, 1, 0, 0, map, 5, room, ROOM, scratch, SCRATCH));
    refused("map of 7", form->compare(left, sizeof left, right, sizeof right, 1, 0, 0, map, 7, room, 273, scratch, SCRATCH));
    refused("room of 273", form->compare(left, sizeof left, right, sizeof right, 1, 0, 0, map, PAIRS, room, 273, scratch, 95));
    refused("scratch of 95", form->compare(left, sizeof left, right, sizeof right, 1, 0, 0, map, PAIRS, room, 274, scratch, 95));
    refused("left of version 2, room of 321", form->compare(left_2, sizeof left_2, right, sizeof right, 1, 0, 0, map, PAIRS, room, 321, scratch, 95));
    refused("left of version 2, scratch of 95", form->compare(left_2, sizeof left_2, right, sizeof right, 1, 0, 0, map, PAIRS, room, 322, scratch, 95));
    refused("bit 3 of the left word, bit 2 of the right one, map of 7",
            form->compare(left, sizeof left, right, sizeof right, 1, 8, 4, map, 7, room, ROOM, scratch, SCRATCH));
    refused("bit 2 of both words, map of 7",
            form->compare(left, sizeof left, right, sizeof right, 1, 4, 4, map, 7, room, ROOM, scratch, SCRATCH));
    refused("bit 63 of the left word, right of 7 bytes",
            form->compare(left, sizeof left, right, 7, 1, UINT64_C(1) << 63, 0, map, 7, room, ROOM, scratch, SCRATCH));
    printf("room as it was: %s\n", count(room, sizeof room, 0xff) == sizeof room ? "yes" : "no");
}

int main(void)
{
    for (const struct form *form = forms; form < forms + sizeof forms / sizeof forms[0]; form++) {
        printf("%s\n", form->name);
        for (size_t bound = 0; bound <= 1; bound++) {
            compare(form, left, sizeof left, ROOM, bound, 0);
            compare(form, left_2, sizeof left_2, ROOM_2, bound, 0);
        }
        const uint64_t hidden[] = {2, 4, 7};
        for (size_t k = 0; k < 3; k++)
            compare(form, left, sizeof left, ROOM, 1, hidden[k]);
        refusals(form);
    }
    return 0;
}
