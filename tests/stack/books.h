/* Books of which the ways are many, for a comparison that goes deep. */
#ifndef BOOKS_H
#define BOOKS_H

#include <stddef.h>
#include <stdint.h>

enum { MOST_CELLS = 64, MOST_LINKS = 512, MOST_BOOK = 8 + 4 * MOST_CELLS + 4 * MOST_LINKS };

struct kind {
    size_t cells, labels, links, recordings;
};

/* Writes a book by chance and another, its cells in the opposite order and one link led elsewhere, and gives their lengths. */
void make_books(const struct kind *kind, uint64_t seed, uint8_t *left, size_t *left_size, uint8_t *right, size_t *right_size);

#endif
