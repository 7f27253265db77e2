/* The lists that are lent, and what every call begins with. */
#ifndef LISTS_H
#define LISTS_H

#include <stdbool.h>
#include <stdint.h>

#include "lend.h"

extern struct list left, right, sheet, map, room, scratch, words, other_words;

/* Finds the pages for all lists. */
void lists_make(void);

/* Takes back all that is lent. */
void lists_take_back(void);

/* Lends any book, and checks it. */
uint64_t any_book_lent(struct list *list);

/* Lends any sheet, and checks it. */
uint64_t any_sheet_lent(void);

/* Check a book, that is lent. */
uint64_t check_book(const struct list *book);

/* Check a sheet. */
uint64_t check_sheet(const uint8_t *bytes, size_t size);

/* Lends a list that can be written, of any content. */
void lend_any(struct list *list, size_t size);

/* The first value of an answer that accepts, else a small number. */
size_t first_or_few(uint64_t answer);

/* The refusal in an answer as one that speaks of this part; 0 if the answer accepts. */
uint64_t refusal_of(uint64_t answer, unsigned part);

/* Refusal 31 of this part, if its book, which had this answer from its check, is accepted and the word has a bit beyond its cells; else 0. */
uint64_t hidden_refused(uint64_t of_book, uint64_t hidden, unsigned part);

/* The answer that refuses the call by this number, if it does; else 0. */
uint64_t call_refused(unsigned refusal, bool refused);

/* The first of some refusals that is not 0, or 0. */
uint64_t first_of(const uint64_t *refusals, size_t count);

#endif
