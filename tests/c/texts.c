/* A C caller of the two functions for texts: prints each answer taken apart, and the room. */
#include <inttypes.h>
#include <stdio.h>
#include <string.h>

#include "cuhnavel.h"
#include "example_a.h"

#define PAIRS 6
#define ROOM 40

static void print(const char *operation, const char *name, uint64_t answer)
{
    printf("%s, %s: refusal %" PRIu32 " part %" PRIu32 " length %" PRIu32 "\n", operation, name, CUHNAVEL_REFUSAL(answer),
           CUHNAVEL_PART(answer), CUHNAVEL_LENGTH(answer));
}

/* The length of an entry's text, the text in so many bytes of the room, and the whole room. */
static void ask(const char *name, const uint8_t *sheet, size_t sheet_len, size_t entry, size_t room_len)
{
    uint8_t room[ROOM];
    memset(room, '_', ROOM);
    print("length", name, cuhnavel_question_length(sheet, sheet_len, entry));
    print("text", name, cuhnavel_question_text(sheet, sheet_len, entry, room, room_len));
    printf("room: %.*s\n", ROOM, (const char *)room);
}

/* The question by which Compare parts (0,0) of example A at bound 1: the one that P1 names. */
static void ask_compare(void)
{
    uint16_t map[PAIRS] = {0};
    uint8_t sheet[10 + 44 * PAIRS], scratch[16 * PAIRS];
    uint64_t answer = cuhnavel_compare(left, sizeof left, right, sizeof right, 1, 0, 0, map, PAIRS, sheet, sizeof sheet, scratch,
                                       sizeof scratch);
    ask("pair (0,0) of example A", sheet, CUHNAVEL_FIRST(answer), map[0], ROOM);
}

/* One of the entries 0 to 1,025, each of which but the first names the one before: by a not, or twice by an and. */
static void ask_chain(const char *name, uint8_t kind, size_t entry)
{
    enum { ENTRIES = 1026 };
    uint8_t sheet[8 + 6 * ENTRIES] = {0, 0, 0, 0, 1, 0, ENTRIES >> 8, ENTRIES & 0xff, 1, 0};
    size_t len = 10;
    for (size_t before = 0; before < ENTRIES - 1; before++) {
        const uint8_t numbers[] = {(uint8_t)(before >> 8), (uint8_t)before, (uint8_t)(before >> 8), (uint8_t)before};
        sheet[len++] = (uint8_t)(1 + 2 * kind);
        sheet[len++] = kind;
        memcpy(sheet + len, numbers, 2 * (size_t)kind);
        len += 2 * (size_t)kind;
    }
    sheet[2] = (uint8_t)(len >> 8);
    sheet[3] = (uint8_t)len;
    ask(name, sheet, len, entry, ROOM);
}

int main(void)
{
    /* Bound 2; entries of each kind: true, not, and, or, ways of no, one and two steps, same, differ. */
    const uint8_t sheet[] = {
        0, 0, 0, 61, 1, 2, 0, 9,
        1, 0,
        3, 1, 0, 0,
        5, 2, 0, 0, 0, 1,
        5, 3, 0, 2, 0, 0,
        2, 4, 0,
        5, 4, 1, 20, 0, 1,
        8, 4, 2, 0, 0, 0, 255, 0, 3,
        6, 5, 1, 0, 7, 0, 0,
        9, 6, 0, 2, 9, 0, 0, 10, 0, 7,
    };
    /* Version 2, bound 1; true, a way by the labels 256 and 65,535, and "same: step 10,000, stay". */
    const uint8_t sheet_2[] = {
        0, 0, 0, 29, 2, 1, 0, 3,
        1, 0,
        10, 4, 2, 1, 0, 0, 0, 255, 255, 0, 0,
        7, 5, 1, 0, 39, 16, 0, 0,
    };
    const char *const names[] = {"true", "not", "and", "or", "way, no steps", "way", "way, two steps", "same", "differ"};

    for (size_t entry = 0; entry < 9; entry++)
        ask(names[entry], sheet, sizeof sheet, entry, ROOM);
    ask("version 2, way, two steps", sheet_2, sizeof sheet_2, 1, ROOM);
    ask("version 2, same", sheet_2, sizeof sheet_2, 2, ROOM);
    ask_compare();
    ask("18 bytes of room", sheet, sizeof sheet, 3, 18);
    ask("17 bytes of room", sheet, sizeof sheet, 3, 17);
    ask("no room", sheet, sizeof sheet, 0, 0);
    ask("sheet of 7 bytes", sheet, 7, 9, 0);
    ask("sheet of 60 bytes", sheet, 60, 0, ROOM);
    ask("entry 9", sheet, sizeof sheet, 9, ROOM);
    ask_chain("not, 1,024 times", 1, 1024);
    ask_chain("not, 1,025 times", 1, 1025);
    ask_chain("and, 29 times", 2, 29);
    ask_chain("and, 30 times", 2, 30);
    ask_chain("and, 1,025 times", 2, 1025);
    return 0;
}
