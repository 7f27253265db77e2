/* Books and sheets of both versions to be lent: accepted ones, such with faults, and any bytes. */
#ifndef INPUTS_H
#define INPUTS_H

#include <stddef.h>
#include <stdint.h>

enum {
    MOST_CELLS = 64,
    MOST_LINKS = 512,
    MOST_ENTRIES = 16385,
    MOST_STEPS = 60,
    LONGEST_BOOK = 8 + 4 * MOST_CELLS + 4 * MOST_LINKS,
    LONGEST_SHEET = 81920, /* of those drawn here */
    MOST_ADDED = 64,       /* bytes that faults add, at most */
};

/* The bytes of a label in a book or sheet, and those of a link or a step. */
size_t label_width(const uint8_t *bytes);
size_t field_width(const uint8_t *bytes);

/* Writes a book to `bytes`, which have room for LONGEST_BOOK + MOST_ADDED, and gives its length. */
size_t any_book(uint8_t *bytes);

/* Writes a sheet to `bytes`, which have room for LONGEST_SHEET + MOST_ADDED, and gives its length. */
size_t any_sheet(uint8_t *bytes);

/* The most ways of 0 to `bound` links from a cell of an accepted book: Compare's time depends on it. */
uint64_t most_ways(const uint8_t *book, size_t bound);

#endif
