#include "tally.h"

#include <inttypes.h>
#include <stdio.h>

#include "cuhnavel.h"
#include "facts.h"

/* The refusals that documents 01 and 02 have for each function, a bit each: those of a book, of a sheet, and of the call. */
#define BIT(refusal) (UINT32_C(1) << (refusal))
#define OF_BOOK (BIT(1) | BIT(2) | BIT(3) | BIT(4) | BIT(5) | BIT(6) | BIT(7))
#define OF_SHEET (BIT(1) | BIT(2) | BIT(3) | BIT(8) | BIT(9) | BIT(10) | BIT(11) | BIT(12) | BIT(13) | BIT(14))

#define OF_BOOK_AND_WORD (OF_BOOK | BIT(31)) /* and of the word that hides its cells */

enum { PARTS = 4, REFUSALS = 32 };

static struct {
    const char *name;
    uint32_t refusals[PARTS];
    uint64_t accepted, refused[PARTS][REFUSALS];
} functions[FUNCTIONS] = {
    [CHECK_BOOK] = {"check_book", {[CUHNAVEL_LEFT_BOOK] = OF_BOOK}},
    [CHECK_SHEET] = {"check_sheet", {[CUHNAVEL_SHEET] = OF_SHEET}},
    [COMPARE] = {"compare", {BIT(20) | BIT(21) | BIT(22) | BIT(23), OF_BOOK_AND_WORD, OF_BOOK_AND_WORD}},
    [COMPARE_ONE_WAY] = {"compare_one_way", {BIT(20) | BIT(21) | BIT(22) | BIT(23), OF_BOOK_AND_WORD, OF_BOOK_AND_WORD}},
    [TRUTH] = {"truth", {BIT(24), OF_BOOK_AND_WORD, 0, OF_SHEET}},
    [CLAIM] = {"claim", {BIT(24) | BIT(25) | BIT(26), OF_BOOK_AND_WORD, OF_BOOK_AND_WORD, OF_SHEET}},
    [ROW] = {"row", {BIT(26) | BIT(27)}},
    [ROW_WORD] = {"row_word", {BIT(26) | BIT(27)}},
    [PAIR] = {"pair", {BIT(25) | BIT(26), 0, 0, OF_SHEET}},
    [LINKS] = {"links", {BIT(26), OF_BOOK}},
    [QUESTION_LENGTH] = {"question_length", {BIT(25) | BIT(28) | BIT(29), 0, 0, OF_SHEET}},
    [QUESTION_TEXT] = {"question_text", {BIT(25) | BIT(28) | BIT(29) | BIT(30), 0, 0, OF_SHEET}},
};

uint64_t counted(enum function function, uint64_t answer)
{
    unsigned part = CUHNAVEL_PART(answer), refusal = CUHNAVEL_REFUSAL(answer);
    if (refusal == 0) {
        FACT(part == 0);
        functions[function].accepted++;
        return answer;
    }
    FACT(CUHNAVEL_FIRST(answer) == 0 && CUHNAVEL_SECOND(answer) == 0);
    FACT(part < PARTS && refusal < REFUSALS && (functions[function].refusals[part] & BIT(refusal)) != 0);
    functions[function].refused[part][refusal]++;
    return answer;
}

/* Prints the line of a function. True if it was seen to accept and to give every refusal. */
static bool report(enum function function)
{
    uint64_t calls = functions[function].accepted;
    bool all = calls > 0;
    for (unsigned part = 0; part < PARTS; part++)
        for (unsigned refusal = 1; refusal < REFUSALS; refusal++) {
            uint64_t times = functions[function].refused[part][refusal];
            calls += times;
            all &= times > 0 || (functions[function].refusals[part] & BIT(refusal)) == 0;
        }
    printf("  %-16s%9" PRIu64 " calls, %9" PRIu64 " accepted%s\n", functions[function].name, calls, functions[function].accepted,
           all ? "" : "; an answer was never seen");
    return all;
}

bool tally_report(void)
{
    bool all = true;
    for (enum function function = 0; function < FUNCTIONS; function++)
        all &= report(function);
    return all;
}
