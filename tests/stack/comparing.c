#include "comparing.h"

#include <inttypes.h>
#include <stdbool.h>
#include <stdio.h>
#include <stdlib.h>
#include <string.h>

#include "books.h"
#include "cuhnavel.h"
#include "threads.h"

enum { PAIRS = MOST_CELLS * MOST_CELLS, SEEDS = 3, BOUNDS = 5 };

/* Books whose levels have no room in a table, as they are or widened, so that the search goes through parts of them: cells, labels, links, recordings. */
static const struct kind kinds[] = {
    {16, 16, 500, 16}, {20, 8, 500, 16}, {24, 8, 500, 16}, {24, 8, 500, 4}, {24, 8, 500, 8},  {32, 8, 500, 16},  {32, 10, 500, 16}, {32, 10, 500, 4},
    {64, 4, 500, 16},  {25, 8, 511, 1},  {33, 7, 501, 1},  {8, 64, 512, 2}, {8, 64, 512, 8},  {12, 42, 504, 12}, {16, 32, 512, 16}, {20, 25, 500, 20},
};

static uint8_t left[MOST_BOOK], right[MOST_BOOK], room[10 + 44 * PAIRS], scratch[16 * PAIRS];
static uint16_t map[PAIRS];

static struct comparison {
    size_t left_size, right_size, cells;
    unsigned bound;
    bool both;
} asked;

static void call(void *answer)
{
    size_t pairs = asked.cells * asked.cells;
    *(uint64_t *)answer =
        (asked.both ? cuhnavel_compare : cuhnavel_compare_one_way)(left, asked.left_size, right, asked.right_size, asked.bound, 0, 0, map, pairs, room,
                                                                   10 + 44 * pairs, scratch, 16 * pairs);
}

/* Compares on so much stack beside what the thread takes for itself, and gives how much was used. */
static size_t used(size_t stack, size_t itself)
{
    uint64_t answer = 0;
    size_t used = run_on_stack(stack + itself, call, &answer) - itself;
    if (CUHNAVEL_REFUSAL(answer) != 0) {
        printf("stack: a comparison at bound %u is refused: %" PRIx64 "\n", asked.bound, answer);
        exit(1);
    }
    return used;
}

size_t pairs_compared(void)
{
    return SEEDS * sizeof kinds / sizeof kinds[0];
}

size_t compare_on_stack(size_t itself)
{
    size_t most = 0;
    for (size_t k = 0; k < sizeof kinds / sizeof kinds[0]; k++)
        for (uint64_t seed = 0; seed < SEEDS; seed++) {
            asked.cells = kinds[k].cells;
            make_books(&kinds[k], seed, left, &asked.left_size, right, &asked.right_size);
            for (asked.bound = 0; asked.bound < BOUNDS; asked.bound++)
                for (int sides = 1; sides <= 2; sides++) {
                    asked.both = sides == 2;
                    size_t more = used(CUHNAVEL_COMPARE_STACK, itself);
                    most = more > most ? more : most;
                }
        }
    return most;
}
