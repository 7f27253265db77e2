#define _DEFAULT_SOURCE
#include "lend.h"

#include <stdio.h>
#include <stdlib.h>
#include <string.h>
#include <sys/mman.h>

#include "facts.h"
#include "random.h"

enum { PAGE = 4096, PATTERN = 0xa5 };

static size_t whole_pages(size_t size)
{
    return (size + PAGE - 1) / PAGE * PAGE;
}

static void protect(const struct list *list, int access)
{
    if (list->open_size > 0 && mprotect(list->open, list->open_size, access) != 0) {
        perror("mprotect");
        exit(2);
    }
}

/* What is open and not lent: behind the list, or before it. */
static uint8_t *beside(const struct list *list)
{
    return list->start == list->open ? list->start + list->size : list->open;
}

static size_t beside_size(const struct list *list)
{
    return list->open_size - list->size;
}

void list_make(struct list *list)
{
    list->pages_size = whole_pages(list->most);
    uint8_t *all = mmap(NULL, list->pages_size + 2 * PAGE, PROT_NONE, MAP_PRIVATE | MAP_ANONYMOUS, -1, 0);
    list->copy = malloc(list->most);
    if (all == MAP_FAILED || list->copy == NULL) {
        perror("a list");
        exit(2);
    }
    list->pages = all + PAGE;
}

void *lend(struct list *list, size_t size, bool constant)
{
    if (size > list->most) {
        fprintf(stderr, "fuzz: %zu bytes of '%s' cannot be lent\n", size, list->name);
        exit(2);
    }
    bool at_end = one_in(2);
    list->size = size;
    list->open_size = whole_pages(size);
    list->open = at_end ? list->pages + list->pages_size - list->open_size : list->pages;
    list->start = at_end ? list->pages + list->pages_size - size : list->pages;
    protect(list, PROT_READ | PROT_WRITE);
    memset(beside(list), PATTERN, beside_size(list));
    memcpy(list->start, list->copy, size);
    if (constant)
        protect(list, PROT_READ);
    return list->start;
}

bool as_lent(const struct list *list, size_t from)
{
    return memcmp(list->start + from, list->copy + from, list->size - from) == 0;
}

void take_back(struct list *list)
{
    if (list->start == NULL)
        return;
    bool only_the_list_was_written = true;
    for (size_t at = 0; at < beside_size(list); at++)
        only_the_list_was_written &= beside(list)[at] == PATTERN;
    FACT(only_the_list_was_written);
    protect(list, PROT_NONE);
    list->start = NULL;
    list->open_size = 0;
}
