#include "inputs.h"

#include <string.h>

#include "random.h"

static void set_length(uint8_t *bytes, size_t size)
{
    for (size_t at = 0; at < 4 && at < size; at++)
        bytes[at] = (uint8_t)(size >> (24 - 8 * at));
}

/* The version of a book or sheet, before anything else is put. */
static void put_version(uint8_t *bytes)
{
    bytes[4] = (uint8_t)between(1, 2);
}

size_t label_width(const uint8_t *bytes)
{
    return bytes[4] == 1 ? 1 : 2;
}

size_t field_width(const uint8_t *bytes)
{
    return label_width(bytes) + 2;
}

/* The header of a book or sheet, all but its version and its length. */
static void put_header(uint8_t *bytes, size_t byte, size_t count)
{
    memcpy(bytes + 5, (uint8_t[]){(uint8_t)byte, (uint8_t)(count >> 8), (uint8_t)count}, 3);
}

/* A number of so many bytes. */
static void put_bytes(uint8_t **at, size_t number, size_t width)
{
    while (width-- > 0)
        *(*at)++ = (uint8_t)(number >> 8 * width);
}

/* A number of cells: mostly small. */
static size_t any_cells(void)
{
    return one_in(8) ? between(1, MOST_CELLS) : between(1, 6);
}

/* How many labels there are in labels of so many bytes. */
static size_t all_labels(size_t width)
{
    return (size_t)1 << 8 * width;
}

/* An accepted book. */
static size_t draw_book(uint8_t *bytes)
{
    put_version(bytes);
    size_t width = label_width(bytes), high = width == 2 && one_in(3) ? 256 : 1; /* labels that differ in the high byte */
    size_t cells = any_cells(), labels = one_in(4) ? all_labels(width) / high : between(1, 3);
    size_t kinds = one_in(8) ? UINT32_MAX : between(1, 3), least = one_in(2); /* recording 0 is silent */
    uint8_t *at = bytes + 8;
    for (size_t cell = 0; cell < cells; cell++)
        put_bytes(&at, least + below(kinds), 4);
    /* The triples are numbered in their order; each link is some triples above the one before. */
    size_t triples = cells * labels * cells;
    size_t wanted = between(0, one_in(4) ? MOST_LINKS : 2 * cells);
    size_t gap = 2 * triples / (wanted + 1) + 1;
    size_t links = 0;
    for (size_t triple = below(gap); triple < triples && links < wanted; triple += 1 + below(gap)) {
        put_bytes(&at, triple / cells / labels, 1);
        put_bytes(&at, triple / cells % labels * high, width);
        put_bytes(&at, triple % cells, 1);
        links++;
    }
    size_t size = (size_t)(at - bytes);
    put_header(bytes, cells, links);
    set_length(bytes, size);
    return size;
}

/* The number of an entry before this one. */
static void put_earlier(uint8_t **at, size_t entry)
{
    put_bytes(at, one_in(3) ? entry - 1 : below(entry), 2);
}

/* A label of so many bytes: mostly one that a book is likely to have. */
static void put_label(uint8_t **at, size_t width)
{
    size_t few = below(3) << (one_in(4) ? 8 * (width - 1) : 0);
    put_bytes(at, one_in(8) ? below(all_labels(width)) : few, width);
}

static void put_steps(uint8_t **at, size_t width, size_t entry, size_t count)
{
    for (size_t step = 0; step < count; step++) {
        put_label(at, width);
        put_earlier(at, entry);
    }
}

/* An entry with its count byte, of an accepted sheet with labels of so many bytes. */
static size_t put_entry(uint8_t *bytes, size_t width, size_t entry, size_t bound)
{
    static const uint8_t numbers[] = {0, 1, 2, 2};
    uint8_t *at = bytes + 1;
    size_t kind = entry == 0 ? 0 : below(7);
    *at++ = (uint8_t)kind;
    if (kind < 4) {
        for (size_t number = 0; number < numbers[kind]; number++)
            put_earlier(&at, entry);
    } else if (kind == 4) {
        size_t steps = one_in(10) ? between(0, MOST_STEPS) : between(0, 3);
        *at++ = (uint8_t)steps;
        put_steps(&at, width, entry, steps);
    } else {
        size_t first = between(0, bound), second = between(0, bound);
        *at++ = (uint8_t)first;
        *at++ = (uint8_t)second;
        put_steps(&at, width, entry, first + second);
    }
    bytes[0] = (uint8_t)(at - bytes - 1);
    return (size_t)(at - bytes);
}

/* An accepted sheet. */
static size_t draw_sheet(uint8_t *bytes)
{
    put_version(bytes);
    size_t bound = below(5), entries = one_in(20) ? between(1, 300) : between(1, 12);
    size_t size = 8;
    for (size_t entry = 0; entry < entries; entry++)
        size += put_entry(bytes + size, label_width(bytes), entry, bound);
    put_header(bytes, bound, entries);
    set_length(bytes, size);
    return size;
}

/* An entry that names the one before: a not or, if there are more kinds, an and, an or, or a way of one step. */
static size_t put_next(uint8_t *bytes, size_t width, size_t entry, size_t kinds)
{
    uint8_t *at = bytes + 1;
    size_t kind = between(1, kinds);
    *at++ = (uint8_t)kind;
    if (kind == 4) {
        *at++ = 1;
        put_bytes(&at, below(all_labels(width)), width);
    }
    put_bytes(&at, entry - 1, 2);
    if (kind == 2 || kind == 3)
        put_earlier(&at, entry);
    bytes[0] = (uint8_t)(at - bytes - 1);
    return (size_t)(at - bytes);
}

/* An accepted sheet of a chain of many entries. */
static size_t chain_sheet(uint8_t *bytes)
{
    put_version(bytes);
    size_t entries = between(1000, 2000), kinds = one_in(2) ? 1 : 4, width = label_width(bytes);
    size_t size = 8 + put_entry(bytes + 8, width, 0, 0);
    for (size_t entry = 1; entry < entries; entry++)
        size += put_next(bytes + size, width, entry, kinds);
    put_header(bytes, below(5), entries);
    set_length(bytes, size);
    return size;
}

/* An accepted sheet of as many entries as there can be, all of them true. */
static size_t most_entries(uint8_t *bytes)
{
    for (size_t entry = 0; entry < MOST_ENTRIES; entry++)
        memcpy(bytes + 8 + 2 * entry, (uint8_t[]){1, 0}, 2);
    put_version(bytes);
    put_header(bytes, below(5), MOST_ENTRIES);
    set_length(bytes, 8 + 2 * MOST_ENTRIES);
    return 8 + 2 * MOST_ENTRIES;
}

/* Changes a byte, behind the header or in it. */
static void change_byte(uint8_t *bytes, size_t size)
{
    size_t place = size > 8 && !one_in(4) ? between(8, size - 1) : below(size);
    switch (below(5)) {
    case 0:
        bytes[place] = (uint8_t)random_next();
        break;
    case 1:
        bytes[place] = one_in(2) ? 0 : 255;
        break;
    case 2:
        bytes[place] ^= (uint8_t)(1 << below(8));
        break;
    default:
        bytes[place] += one_in(2) ? 1 : 255;
    }
}

/* One fault or more; bytes are added, at most MOST_ADDED in all, cut off, changed or moved. Gives the new length. */
static size_t damage(uint8_t *bytes, size_t size)
{
    size_t most = size + MOST_ADDED;
    for (size_t faults = between(1, 3); faults > 0; faults--) {
        size_t old = size;
        size_t kind = below(8);
        if (kind == 0)
            size = below(size + 1);
        else if (kind == 1)
            size += below(most - size + 1);
        else if (kind == 2 && size >= 6) /* two links or entries alike */
            memmove(bytes + below(size - 3), bytes + below(size - 3), between(3, 4));
        else if (size > 0)
            change_byte(bytes, size);
        if (size > old)
            fill(bytes + old, size - old);
        if (size != old && !one_in(3))
            set_length(bytes, size);
    }
    return size;
}

/* Any bytes, now and then behind a header that could be one. */
static size_t any_bytes(uint8_t *bytes, size_t most)
{
    size_t size = below(one_in(4) ? most + 1 : 80);
    fill(bytes, size);
    if (size >= 8 && one_in(2)) {
        put_version(bytes);
        put_header(bytes, below(7), below(6));
        set_length(bytes, size);
    }
    return size;
}

/* What was drawn, or the same with faults. */
static size_t perhaps_damaged(uint8_t *bytes, size_t size)
{
    return one_in(4) ? damage(bytes, size) : size;
}

size_t any_book(uint8_t *bytes)
{
    return one_in(12) ? any_bytes(bytes, LONGEST_BOOK + MOST_ADDED) : perhaps_damaged(bytes, draw_book(bytes));
}

size_t any_sheet(uint8_t *bytes)
{
    if (one_in(12))
        return any_bytes(bytes, one_in(50) ? LONGEST_SHEET : 2000);
    if (one_in(40))
        return perhaps_damaged(bytes, one_in(10) ? most_entries(bytes) : chain_sheet(bytes));
    return perhaps_damaged(bytes, draw_sheet(bytes));
}

uint64_t most_ways(const uint8_t *book, size_t bound)
{
    size_t cells = book[5], links = (size_t)book[6] << 8 | book[7], width = field_width(book);
    uint64_t all[MOST_CELLS], last[MOST_CELLS], most = 1;
    for (size_t cell = 0; cell < cells; cell++)
        all[cell] = last[cell] = 1;
    for (size_t length = 1; length <= bound; length++) {
        uint64_t next[MOST_CELLS] = {0};
        for (const uint8_t *link = book + 8 + 4 * cells; link < book + 8 + 4 * cells + width * links; link += width)
            next[link[0]] += last[link[width - 1]];
        for (size_t cell = 0; cell < cells; cell++) {
            last[cell] = next[cell];
            all[cell] += next[cell];
            most = all[cell] > most ? all[cell] : most;
        }
    }
    return most;
}
