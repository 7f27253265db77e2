/* Compare, and its one-way form. */
#include "calls.h"
#include "cuhnavel.h"
#include "facts.h"
#include "inputs.h"
#include "lists.h"
#include "random.h"
#include "tally.h"

/* More than so many pairs of ways at pairs of cells take too long here. */
enum { MOST_WORK = 1000000 };

/* The bound or, where two accepted books would take too long, a smaller one. */
static size_t quick_bound(size_t bound, const struct list *other)
{
    while (bound >= 1 && bound <= 4) {
        uint64_t ways = most_ways(left.start, bound), other_ways = most_ways(other->start, bound);
        if ((ways * ways + other_ways * other_ways) * left.start[5] * other->start[5] <= MOST_WORK)
            break;
        bound--;
    }
    return bound;
}

/* What Compare is asked beside the books. */
struct asked {
    enum function form;
    size_t m, bound;
    uint64_t left_hidden, right_hidden;
};

/* Claim says yes to the first parted pair from some place on, if there is one, and no if a cell of it is hidden. */
static void claim_one(const struct list *other, const struct asked *asked, size_t sheet_size, size_t entries)
{
    const uint16_t *place = (const uint16_t *)map.start;
    size_t count = map.size / sizeof *place, from = below(count), k = 0;
    while (k < count && place[(from + k) % count] == 0)
        k++;
    if (k == count)
        return;
    k = (from + k) % count;
    bool hidden = place[k] == CUHNAVEL_HIDDEN;
    lend_any(&words, 8 * entries);
    uint64_t answer = counted(CLAIM, cuhnavel_claim(left.start, left.size, other->start, other->size, asked->left_hidden,
                                                    asked->right_hidden, room.start, sheet_size, hidden ? below(entries) : place[k],
                                                    k / asked->m, k % asked->m, (uint64_t *)words.start, entries));
    FACT(CUHNAVEL_REFUSAL(answer) == 0 && CUHNAVEL_FIRST(answer) == !hidden);
}

/* One of the books is of version 2, and then the sheet is. */
static bool wide(const struct list *other)
{
    return (left.size > 4 && left.start[4] == 2) || (other->size > 4 && other->start[4] == 2);
}

/* The bytes of room that so many pairs need. */
static size_t room_needed(const struct list *other, size_t pairs)
{
    return 10 + (wide(other) ? 52 : 44) * pairs;
}

/* No entry of the sheet, which is accepted and starts the room, is a "not". */
static bool denies_nothing(size_t sheet_size)
{
    size_t at = 8;
    while (at < sheet_size && room.start[at + 1] != 1)
        at += 1 + room.start[at];
    return at == sheet_size;
}

/* What an accepted Compare left, in one of its forms. */
static void compared(const struct asked *asked, const struct list *other, uint64_t answer)
{
    size_t sheet_size = CUHNAVEL_FIRST(answer), count = map.size / 2, zeros = 0;
    FACT(sheet_size >= 10 && sheet_size <= room_needed(other, count));
    FACT(as_lent(&room, sheet_size));
    FACT(room.start[4] == (wide(other) ? 2 : 1));
    uint64_t of_sheet = check_sheet(room.start, sheet_size);
    FACT(CUHNAVEL_REFUSAL(of_sheet) == 0 && CUHNAVEL_SECOND(of_sheet) == asked->bound);
    FACT(CUHNAVEL_FIRST(of_sheet) <= 1 + (asked->form == COMPARE ? 4 : 2) * count);
    FACT(asked->form == COMPARE || denies_nothing(sheet_size));
    const uint16_t *place = (const uint16_t *)map.start;
    for (size_t k = 0; k < count; k++) {
        bool hidden = (asked->left_hidden >> k / asked->m | asked->right_hidden >> k % asked->m) & 1;
        FACT(hidden ? place[k] == CUHNAVEL_HIDDEN : place[k] < CUHNAVEL_FIRST(of_sheet));
        zeros += place[k] == 0;
    }
    FACT(CUHNAVEL_SECOND(answer) == zeros);
    for (size_t k = 0; k < scratch.size; k++)
        FACT(scratch.start[k] == 0);
    claim_one(other, asked, sheet_size, CUHNAVEL_FIRST(of_sheet));
}

/* One of the two forms. */
static void call_form(enum function form)
{
    uint64_t of_left = any_book_lent(&left);
    const struct list *other = one_in(8) ? &left : &right; /* the two may be the same book */
    uint64_t of_right = other == &left ? of_left : any_book_lent(&right);
    size_t m = first_or_few(of_right), pairs = first_or_few(of_left) * m, bound = one_in(3) ? any_number(5) : below(5);
    if (CUHNAVEL_REFUSAL(of_left) == 0 && CUHNAVEL_REFUSAL(of_right) == 0)
        bound = quick_bound(bound, other);
    const struct asked asked = {form, m, bound, any_hidden(pairs / m), any_hidden(m)};
    lend_any(&map, 2 * any_length(pairs));
    lend_any(&room, any_length(room_needed(other, pairs)));
    lend_any(&scratch, any_length(16 * pairs));
    uint64_t answer = counted(form, (form == COMPARE ? cuhnavel_compare : cuhnavel_compare_one_way)(
                                        left.start, left.size, other->start, other->size, bound, asked.left_hidden,
                                        asked.right_hidden, (uint16_t *)map.start, map.size / 2, room.start, room.size,
                                        scratch.start, scratch.size));
    const uint64_t refusals[] = {
        call_refused(20, bound > 4),
        refusal_of(of_left, CUHNAVEL_LEFT_BOOK),
        refusal_of(of_right, CUHNAVEL_RIGHT_BOOK),
        hidden_refused(of_left, asked.left_hidden, CUHNAVEL_LEFT_BOOK),
        hidden_refused(of_right, asked.right_hidden, CUHNAVEL_RIGHT_BOOK),
        call_refused(21, map.size / 2 != pairs),
        call_refused(22, room.size < room_needed(other, pairs)),
        call_refused(23, scratch.size < 16 * pairs),
    };
    if (first_of(refusals, 8) == 0) {
        FACT(CUHNAVEL_REFUSAL(answer) == 0);
        compared(&asked, other, answer);
        return;
    }
    FACT(answer == first_of(refusals, 8));
    FACT(as_lent(&map, 0) && as_lent(&room, 0) && as_lent(&scratch, 0));
}

void call_compare(void)
{
    call_form(COMPARE);
}

void call_compare_one_way(void)
{
    call_form(COMPARE_ONE_WAY);
}
