#include "books.h"

#include <stdbool.h>
#include <string.h>

enum { MOST_LABELS = 64 };

/* Whether there is a link from a cell by a label to a cell. */
static bool linked[MOST_CELLS][MOST_LABELS][MOST_CELLS];

static size_t below(uint64_t *state, size_t most)
{
    *state ^= *state << 13;
    *state ^= *state >> 7;
    *state ^= *state << 17;
    return (size_t)((*state >> 11) % most);
}

/* The book of these recordings and of the links that there are; the cells are counted from the other end where it is turned. */
static size_t put_book(const struct kind *kind, const uint8_t *recordings, bool turned, uint8_t *book)
{
    size_t cells = kind->cells, links = 0, at = 8;
    for (size_t x = 0; x < cells; x++) {
        memset(book + at, 0, 3);
        book[at + 3] = recordings[turned ? cells - 1 - x : x];
        at += 4;
    }
    for (size_t x = 0; x < cells; x++)
        for (size_t label = 0; label < kind->labels; label++)
            for (size_t y = 0; y < cells; y++)
                if (turned ? linked[cells - 1 - x][label][cells - 1 - y] : linked[x][label][y]) {
                    book[at++] = (uint8_t)x;
                    book[at++] = (uint8_t)label;
                    book[at++] = (uint8_t)y;
                    links++;
                }
    const uint8_t head[] = {0, 0, (uint8_t)(at >> 8), (uint8_t)at, 1, (uint8_t)cells, (uint8_t)(links >> 8), (uint8_t)links};
    memcpy(book, head, sizeof head);
    return at;
}

void make_books(const struct kind *kind, uint64_t seed, uint8_t *left, size_t *left_size, uint8_t *right, size_t *right_size)
{
    uint64_t state = seed * 0x9e3779b97f4a7c15u + 1;
    uint8_t recordings[MOST_CELLS];
    memset(linked, 0, sizeof linked);
    for (size_t x = 0; x < kind->cells; x++)
        recordings[x] = (uint8_t)(1 + below(&state, kind->recordings));
    for (size_t k = 0; k < kind->links; k++)
        linked[below(&state, kind->cells)][below(&state, kind->labels)][below(&state, kind->cells)] = true;
    *left_size = put_book(kind, recordings, false, left);
    size_t x = below(&state, kind->cells), label = below(&state, kind->labels), y = below(&state, kind->cells);
    for (size_t z = 0; z < kind->cells; z++)
        if (linked[x][label][z]) {
            linked[x][label][z] = false;
            break;
        }
    linked[x][label][y] = true;
    *right_size = put_book(kind, recordings, true, right);
}
