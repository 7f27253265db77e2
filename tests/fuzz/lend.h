/* Lists that are lent against pages that cannot be touched: whoever reads or writes beside one is stopped at once.
 *
 * A list starts where a page starts, or ends where a page ends. All pages but those that it lies in are closed. What it does not
 * fill of these holds a pattern, which is looked at when the list is taken back.
 */
#ifndef LEND_H
#define LEND_H

#include <stdbool.h>
#include <stddef.h>
#include <stdint.h>

struct list {
    const char *name;
    size_t most;    /* as many bytes can be lent */
    uint8_t *copy;  /* what will be lent, or was */
    uint8_t *start; /* what is lent; null if nothing is */
    size_t size;
    uint8_t *pages; /* where it may lie, between two closed pages at least */
    size_t pages_size;
    uint8_t *open; /* the pages that it lies in */
    size_t open_size;
};

/* Finds the pages for a list, and room for its copy. */
void list_make(struct list *list);

/* Lends the first bytes of the copy; if they are constant, the pages are read-only. Gives where they are. */
void *lend(struct list *list, size_t size, bool constant);

/* The list is as it was when it was lent, from this byte on. */
bool as_lent(const struct list *list, size_t from);

/* Takes a list back, if it is lent. Fails if something beside it was written. */
void take_back(struct list *list);

#endif
