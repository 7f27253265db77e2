#include "chains.h"

#include <string.h>

/* Every step has this label: the longest one. All its bytes are 255, one in version 1 and two in version 2. */
#define LABEL_BYTE 255
static const char *const before_test[] = {[1] = "/255[", [2] = "/65535["};

const struct place places[] = {
    {"not", 1, {0, 0}, 0},
    {"and, first", 2, {0, 0}, 0},
    {"and, second", 2, {0, 0}, 1},
    {"or, first", 3, {0, 0}, 0},
    {"or, second", 3, {0, 0}, 1},
    {"way of one step", 4, {1, 0}, 0},
    {"way, first of 60 steps", 4, {60, 0}, 0},
    {"way, 30th of 60 steps", 4, {60, 0}, 29},
    {"way, last of 60 steps", 4, {60, 0}, 59},
    {"same, first way", 5, {1, 0}, 0},
    {"same, second way", 5, {4, 4}, 4},
    {"differ, first way", 6, {4, 4}, 3},
    {"differ, second way, first step", 6, {4, 4}, 4},
    {"differ, second way, last step", 6, {4, 4}, 7},
    {"differ, second way alone", 6, {0, 1}, 0},
};
const size_t places_count = sizeof places / sizeof places[0];

/* The forms of each kind: how it opens, what stands between its parts or ways, and how it closes. */
static const struct {
    const char *open, *sign, *close;
} forms[] = {
    [1] = {"!(", "", ")"}, [2] = {"(", "&", ")"}, [3] = {"(", "|", ")"},
    [4] = {"<", "", ">"},  [5] = {"<", "=", ">"}, [6] = {"<", "!=", ">"},
};

static size_t numbers(const struct place *place)
{
    return place->kind >= 4 ? place->steps[0] + place->steps[1] : place->kind == 1 ? 1 : 2;
}

/* An entry with its count byte, in a sheet of this version. */
static size_t put_entry(uint8_t *bytes, uint8_t version, const struct place *place, size_t number)
{
    uint8_t *at = bytes + 1;
    *at++ = place->kind;
    for (int way = 0; way < place->kind - 3 && way < 2; way++)
        *at++ = place->steps[way];
    for (size_t k = 0; k < numbers(place); k++) {
        size_t named = k == place->at ? number : 0;
        for (int label = 0; place->kind >= 4 && label < version; label++)
            *at++ = LABEL_BYTE;
        *at++ = (uint8_t)(named >> 8);
        *at++ = (uint8_t)named;
    }
    bytes[0] = (uint8_t)(at - bytes - 1);
    return (size_t)(at - bytes);
}

/* The text of an entry, in two parts: before and after the question of the number at the place. */
static void put_form(char *before, char *after, uint8_t version, const struct place *place)
{
    const uint8_t kind = place->kind, second = kind >= 4 ? place->steps[0] : 1;
    char *text = strcpy(before, forms[kind].open);
    *after = '\0';
    if (kind >= 4 && place->steps[0] == 0)
        strcat(text, ".");
    for (size_t k = 0; k < numbers(place); k++) {
        if (k == second)
            strcat(text, forms[kind].sign);
        if (kind >= 4)
            strcat(text, before_test[version]);
        if (k == place->at)
            text = after;
        else
            strcat(text, "<.>");
        if (kind >= 4)
            strcat(text, "]");
    }
    if (kind >= 5 && place->steps[1] == 0)
        strcat(strcat(text, forms[kind].sign), ".");
    strcat(text, forms[kind].close);
}

static void add_text(struct chain *chain, const char *text, size_t times)
{
    for (size_t length = strlen(text); times > 0; times--) {
        memcpy(chain->text + chain->text_size, text, length);
        chain->text_size += length;
    }
}

void make_chain(struct chain *chain, uint8_t version, const struct place *place)
{
    /* Bound 4; entry 0: true; entry 1: "differ: stay, stay"; then the references. */
    const uint8_t start[] = {0, 0, 0, 0, version, 4, (2 + REFERENCES) >> 8, (2 + REFERENCES) & 0xff, 1, 0, 3, 6, 0, 0};
    char before[LONGEST_FORM + 1], after[LONGEST_FORM + 1];
    memcpy(chain->sheet, start, sizeof start);
    chain->sheet_size = sizeof start;
    for (chain->entry = 1; chain->entry <= REFERENCES; chain->entry++)
        chain->sheet_size += put_entry(chain->sheet + chain->sheet_size, version, place, chain->entry);
    for (size_t at = 0; at < 4; at++)
        chain->sheet[at] = (uint8_t)(chain->sheet_size >> (24 - 8 * at));

    put_form(before, after, version, place);
    chain->text_size = 0;
    add_text(chain, before, REFERENCES);
    add_text(chain, "<.!=.>", 1);
    add_text(chain, after, REFERENCES);
}
