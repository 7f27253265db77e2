/* Truth and Claim. */
#include <string.h>

#include "calls.h"
#include "cuhnavel.h"
#include "facts.h"
#include "lists.h"
#include "random.h"
#include "tally.h"

/* Truth of a book, of which a word hides some cells, and the sheet, which are lent and had these answers from their checks, into some
   words. */
static void truth(const struct list *book, uint64_t of_book, uint64_t hidden, uint64_t of_sheet, struct list *list)
{
    uint64_t *word = (uint64_t *)list->start;
    size_t count = list->size / sizeof *word, entries = CUHNAVEL_FIRST(of_sheet);
    uint64_t answer = counted(TRUTH, cuhnavel_truth(book->start, book->size, hidden, sheet.start, sheet.size, word, count));
    const uint64_t refusals[] = {
        refusal_of(of_book, CUHNAVEL_LEFT_BOOK),
        hidden_refused(of_book, hidden, CUHNAVEL_LEFT_BOOK),
        refusal_of(of_sheet, CUHNAVEL_SHEET),
        call_refused(24, count < entries),
    };
    FACT(answer == first_of(refusals, 4));
    if (CUHNAVEL_REFUSAL(answer) != 0) {
        FACT(as_lent(list, 0));
        return;
    }
    FACT(as_lent(list, entries * sizeof *word));
    uint64_t every = UINT64_MAX >> (64 - CUHNAVEL_FIRST(of_book)) & ~hidden; /* the cells that are shown */
    FACT(word[0] == every);
    for (size_t k = 0; k < entries; k++)
        FACT((word[k] & ~every) == 0);
}

void call_truth(void)
{
    uint64_t of_book = any_book_lent(&left), of_sheet = any_sheet_lent();
    lend_any(&words, 8 * any_length(first_or_few(of_sheet)));
    truth(&left, of_book, any_hidden(first_or_few(of_book)), of_sheet, &words);
}

/* What Claim is asked beside the books and the sheet. */
struct claimed {
    size_t entry, cells[2];
    uint64_t hidden[2];
};

/* An accepted Claim said so: it agrees with Truth of both books, and left the words as that of the right one. */
static void agrees(const struct claimed *claimed, bool yes, const struct list *other, const uint64_t of[3])
{
    const struct list *books[] = {&left, other};
    bool holds[2], hidden[2];
    for (size_t side = 0; side < 2; side++) {
        take_back(&other_words);
        memcpy(other_words.copy, words.copy, words.size);
        lend(&other_words, words.size, false);
        truth(books[side], of[side], claimed->hidden[side], of[2], &other_words);
        holds[side] = ((const uint64_t *)other_words.start)[claimed->entry] >> claimed->cells[side] & 1;
        hidden[side] = claimed->hidden[side] >> claimed->cells[side] & 1;
    }
    FACT(yes == (holds[0] && !holds[1] && !hidden[0] && !hidden[1]));
    FACT(memcmp(words.start, other_words.start, words.size) == 0);
}

void call_claim(void)
{
    uint64_t of_left = any_book_lent(&left);
    const struct list *other = one_in(8) ? &left : &right; /* the two may be the same book */
    uint64_t of_right = other == &left ? of_left : any_book_lent(&right), of_sheet = any_sheet_lent();
    size_t entries = first_or_few(of_sheet), n = first_or_few(of_left), m = first_or_few(of_right);
    struct claimed claimed = {any_number(entries), {any_number(n), any_number(m)}, {any_hidden(n), any_hidden(m)}};
    lend_any(&words, 8 * any_length(entries));
    size_t count = words.size / 8;
    uint64_t answer = counted(CLAIM, cuhnavel_claim(left.start, left.size, other->start, other->size, claimed.hidden[0],
                                                    claimed.hidden[1], sheet.start, sheet.size, claimed.entry, claimed.cells[0],
                                                    claimed.cells[1], (uint64_t *)words.start, count));
    const uint64_t refusals[] = {
        refusal_of(of_left, CUHNAVEL_LEFT_BOOK),
        refusal_of(of_right, CUHNAVEL_RIGHT_BOOK),
        hidden_refused(of_left, claimed.hidden[0], CUHNAVEL_LEFT_BOOK),
        hidden_refused(of_right, claimed.hidden[1], CUHNAVEL_RIGHT_BOOK),
        refusal_of(of_sheet, CUHNAVEL_SHEET),
        call_refused(24, count < entries),
        call_refused(25, claimed.entry >= entries),
        call_refused(26, claimed.cells[0] >= n || claimed.cells[1] >= m),
    };
    if (first_of(refusals, 8) != 0) {
        FACT(answer == first_of(refusals, 8));
        FACT(as_lent(&words, 0));
        return;
    }
    FACT(CUHNAVEL_REFUSAL(answer) == 0 && CUHNAVEL_FIRST(answer) <= 1 && CUHNAVEL_SECOND(answer) == 0);
    agrees(&claimed, CUHNAVEL_FIRST(answer) == 1, other, (const uint64_t[]){of_left, of_right, of_sheet});
}
