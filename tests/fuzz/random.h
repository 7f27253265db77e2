/* Random numbers from a seed, the same on every machine (splitmix64). */
#ifndef RANDOM_H
#define RANDOM_H

#include <stdbool.h>
#include <stddef.h>
#include <stdint.h>

/* The numbers that follow depend on the seed alone. */
void random_seed(uint64_t seed);

uint64_t random_next(void);

/* A number below `end`, which is not 0. */
size_t below(size_t end);

/* A number from `least` to `most`. */
size_t between(size_t least, size_t most);

/* True once in `n` times. */
bool one_in(size_t n);

/* Any number: mostly below `end` or just beyond, else one at an edge of the machine's numbers or in between. */
size_t any_number(size_t end);

enum { MOST_MORE = 70 };

/* Any length of a list of which `needed` are needed: mostly as many, else fewer or up to MOST_MORE more. */
size_t any_length(size_t needed);

/* Any word for a book of so many cells, which hides none of them, some or all; seldom it has bits beyond. */
uint64_t any_hidden(size_t cells);

/* Fills bytes: with zeros, ones or random ones. */
void fill(uint8_t *bytes, size_t size);

#endif
