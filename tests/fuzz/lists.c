#include "lists.h"

#include "cuhnavel.h"
#include "facts.h"
#include "inputs.h"
#include "random.h"
#include "tally.h"

enum { MOST_PAIRS = MOST_CELLS * MOST_CELLS };

struct list left = {.name = "left book", .most = LONGEST_BOOK + MOST_ADDED};
struct list right = {.name = "right book", .most = LONGEST_BOOK + MOST_ADDED};
struct list sheet = {.name = "sheet", .most = LONGEST_SHEET + MOST_ADDED};
struct list map = {.name = "map", .most = 2 * (MOST_PAIRS + MOST_MORE)};
struct list room = {.name = "room", .most = 10 + 52 * MOST_PAIRS + MOST_MORE};
struct list scratch = {.name = "scratch", .most = 16 * MOST_PAIRS + MOST_MORE};
struct list words = {.name = "words", .most = 8 * (MOST_ENTRIES + MOST_MORE)};
struct list other_words = {.name = "other words", .most = 8 * (MOST_ENTRIES + MOST_MORE)};

static struct list *const lists[] = {&left, &right, &sheet, &map, &room, &scratch, &words, &other_words};
enum { LISTS = sizeof lists / sizeof lists[0] };

void lists_make(void)
{
    for (size_t k = 0; k < LISTS; k++)
        list_make(lists[k]);
}

void lists_take_back(void)
{
    for (size_t k = 0; k < LISTS; k++)
        take_back(lists[k]);
}

uint64_t any_book_lent(struct list *list)
{
    lend(list, any_book(list->copy), true);
    return check_book(list);
}

uint64_t any_sheet_lent(void)
{
    lend(&sheet, any_sheet(sheet.copy), true);
    return check_sheet(sheet.start, sheet.size);
}

uint64_t check_book(const struct list *book)
{
    uint64_t answer = counted(CHECK_BOOK, cuhnavel_check_book(book->start, book->size));
    if (CUHNAVEL_REFUSAL(answer) == 0) {
        size_t cells = CUHNAVEL_FIRST(answer), links = CUHNAVEL_SECOND(answer);
        FACT(cells >= 1 && cells <= MOST_CELLS && links <= MOST_LINKS);
        FACT(book->start[4] == 1 || book->start[4] == 2);
        FACT(book->size == 8 + 4 * cells + field_width(book->start) * links);
    }
    return answer;
}

uint64_t check_sheet(const uint8_t *bytes, size_t size)
{
    uint64_t answer = counted(CHECK_SHEET, cuhnavel_check_sheet(bytes, size));
    if (CUHNAVEL_REFUSAL(answer) == 0) {
        size_t entries = CUHNAVEL_FIRST(answer);
        FACT(entries >= 1 && entries <= MOST_ENTRIES && CUHNAVEL_SECOND(answer) <= 4);
        FACT(bytes[4] == 1 || bytes[4] == 2);
        FACT(size >= 8 + 2 * entries);
    }
    return answer;
}

void lend_any(struct list *list, size_t size)
{
    fill(list->copy, size);
    lend(list, size, false);
}

size_t first_or_few(uint64_t answer)
{
    return CUHNAVEL_REFUSAL(answer) == 0 ? CUHNAVEL_FIRST(answer) : between(1, 8);
}

uint64_t refusal_of(uint64_t answer, unsigned part)
{
    return CUHNAVEL_REFUSAL(answer) == 0 ? 0 : CUHNAVEL_REFUSAL(answer) | part << 8;
}

uint64_t hidden_refused(uint64_t of_book, uint64_t hidden, unsigned part)
{
    size_t cells = CUHNAVEL_FIRST(of_book);
    bool beyond = CUHNAVEL_REFUSAL(of_book) == 0 && cells < 64 && hidden >> cells != 0;
    return beyond ? 31 | part << 8 : 0;
}

uint64_t call_refused(unsigned refusal, bool refused)
{
    return refused ? refusal | CUHNAVEL_CALL << 8 : 0;
}

uint64_t first_of(const uint64_t *refusals, size_t count)
{
    size_t k = 0;
    while (k < count && refusals[k] == 0)
        k++;
    return k < count ? refusals[k] : 0;
}
