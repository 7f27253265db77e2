/* The checks, Row, Pair and Links: what is only read. */
#include "calls.h"
#include "cuhnavel.h"
#include "facts.h"
#include "inputs.h"
#include "lists.h"
#include "random.h"
#include "tally.h"

void call_checks(void)
{
    any_book_lent(&left);
    any_sheet_lent();
}

/* Lends a map of so many places, of which many hold 0, some have a hidden cell, and most others hold a number below `end` or just beyond. */
static const uint16_t *any_map_lent(size_t count, size_t end)
{
    uint16_t *place = (uint16_t *)map.copy;
    for (size_t k = 0; k < count; k++)
        place[k] = (uint16_t)(one_in(2) ? 0 : one_in(8) ? CUHNAVEL_HIDDEN : any_number(end));
    return lend(&map, count * sizeof *place, true);
}

void call_row(void)
{
    size_t m = any_number(one_in(3) ? 64 : 8), i = any_number(8);
    size_t count = any_length(one_in(4) ? below(600) : (m % 65) * (i % 9 + 1));
    const uint16_t *place = any_map_lent(count, 20);
    uint64_t answer = counted(ROW, cuhnavel_row(place, count, m, i));
    counted(ROW_WORD, answer); /* it gives a word, and 0 where Row refuses */
    uint64_t word = cuhnavel_row_word(place, count, m, i);
    const uint64_t refusals[] = {
        call_refused(27, m == 0 || m > 64),
        call_refused(26, m != 0 && i >= count / m),
    };
    uint64_t expected = first_of(refusals, 2), expected_word = 0, zeros = 0;
    for (size_t j = 0; expected == 0 && j < m; j++)
        if (place[i * m + j] == 0) {
            expected_word |= UINT64_C(1) << j;
            zeros++;
        }
    FACT(answer == (expected != 0 ? expected : zeros << 16));
    FACT(word == expected_word);
}

/* The byte of an accepted sheet where an entry starts. */
static size_t entry_start(size_t entry)
{
    size_t start = 8;
    while (entry-- > 0)
        start += 1 + sheet.start[start];
    return start;
}

void call_pair(void)
{
    uint64_t of_sheet = any_sheet_lent();
    size_t entries = first_or_few(of_sheet), count = below(20), at = any_number(count + 1);
    const uint16_t *place = any_map_lent(count, entries);
    uint64_t answer = counted(PAIR, cuhnavel_pair(place, count, at, sheet.start, sheet.size));
    const uint64_t refusals[] = {
        refusal_of(of_sheet, CUHNAVEL_SHEET),
        call_refused(26, at >= count),
        call_refused(25, at < count && place[at] >= entries && place[at] != CUHNAVEL_HIDDEN),
    };
    uint64_t expected = first_of(refusals, 3);
    if (expected == 0 && place[at] == CUHNAVEL_HIDDEN)
        expected = (uint64_t)CUHNAVEL_HIDDEN << 16;
    else if (expected == 0 && place[at] != 0)
        expected = (uint64_t)place[at] << 16 | (uint64_t)entry_start(place[at]) << 40;
    FACT(answer == expected);
}

void call_links(void)
{
    uint64_t of_book = any_book_lent(&left);
    size_t cells = first_or_few(of_book), cell = any_number(cells);
    uint64_t answer = counted(LINKS, cuhnavel_links(left.start, left.size, cell));
    const uint64_t refusals[] = {
        refusal_of(of_book, CUHNAVEL_LEFT_BOOK),
        call_refused(26, cell >= cells),
    };
    uint64_t expected = first_of(refusals, 2), start = 0, links = 0;
    for (size_t at = 8 + 4 * cells; expected == 0 && at < left.size; at += field_width(left.start))
        if (left.start[at] == cell) {
            start = links == 0 ? at : start;
            links++;
        }
    FACT(answer == (expected != 0 ? expected : links << 16 | start << 40));
}
