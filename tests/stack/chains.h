/* Sheets with the deepest questions that are written: chains of 1,024 references. */
#ifndef CHAINS_H
#define CHAINS_H

#include <stddef.h>
#include <stdint.h>

enum { REFERENCES = 1024, LONGEST_ENTRY = 1 + 2 + 4 * 60, LONGEST_FORM = 11 * 60 + 4 };

/* The place from which each entry refers to the one before; the other numbers in it name entry 0. */
struct place {
    const char *name;
    uint8_t kind;     /* 1 to 6, as in the sheet */
    uint8_t steps[2]; /* of its ways */
    uint8_t at;       /* which of its numbers, from 0 */
};

extern const struct place places[];
extern const size_t places_count;

struct chain {
    uint8_t sheet[8 + 2 + 4 + REFERENCES * (1 + LONGEST_ENTRY)];
    size_t sheet_size;
    size_t entry; /* from which all references lead */
    char text[REFERENCES * LONGEST_FORM + 6];
    size_t text_size;
};

/* The chain of references from one place, in a sheet of this version, and its text. */
void make_chain(struct chain *chain, uint8_t version, const struct place *place);

#endif
