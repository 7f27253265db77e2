/* How often each function was called, and with which answer. */
#ifndef TALLY_H
#define TALLY_H

#include <stdbool.h>
#include <stdint.h>

enum function {
    CHECK_BOOK,
    CHECK_SHEET,
    COMPARE,
    COMPARE_ONE_WAY,
    TRUTH,
    CLAIM,
    ROW,
    ROW_WORD,
    PAIR,
    LINKS,
    QUESTION_LENGTH,
    QUESTION_TEXT,
    FUNCTIONS,
};

/* Counts an answer, and gives it. A refusal has to be one that the function can give, without values. */
uint64_t counted(enum function function, uint64_t answer);

/* Prints how many calls of each function were made and how many were accepted. True if each function was seen to accept and to
 * give every refusal that it can give. */
bool tally_report(void);

#endif
