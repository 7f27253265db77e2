/* Question length and question text. */
#include <string.h>

#include "calls.h"
#include "cuhnavel.h"
#include "facts.h"
#include "lists.h"
#include "random.h"
#include "tally.h"

/* Only from an entry above this one a chain of more references can lead. No text is shorter. */
enum { MOST_CHAIN = 1024, SHORTEST = 3 };

/* The bytes are those of texts, and only the last closes the first bracket. */
static void is_text(const uint8_t *text, size_t length)
{
    FACT(text[0] == '<' || text[0] == '(' || (text[0] == '!' && text[1] == '('));
    size_t open = 0;
    for (size_t at = 0; at < length; at++) {
        FACT(memchr("0123456789!&()./<=>[]|", text[at], 22) != NULL);
        FACT(at <= 1 || open > 0);
        open += text[at] == '<' || text[at] == '(' || text[at] == '[';
        open -= text[at] == '>' || text[at] == ')' || text[at] == ']';
    }
    FACT(open == 0);
}

/* Writes the text of an entry, of which the length is answered so, into any room. */
static void write_text(size_t entry, uint64_t length)
{
    size_t needed = CUHNAVEL_LENGTH(length);
    lend_any(&room, needed + MOST_MORE <= room.most ? any_length(needed) : below(1000));
    uint64_t answer = counted(QUESTION_TEXT, cuhnavel_question_text(sheet.start, sheet.size, entry, room.start, room.size));
    FACT(answer == (room.size < needed ? call_refused(30, true) : length));
    FACT(as_lent(&room, CUHNAVEL_LENGTH(answer))); /* all of it if refused */
    if (CUHNAVEL_REFUSAL(answer) == 0)
        is_text(room.start, needed);
}

void call_texts(void)
{
    uint64_t of_sheet = any_sheet_lent();
    size_t entries = first_or_few(of_sheet), entry = one_in(3) ? entries - 1 : any_number(entries);
    uint64_t answer = counted(QUESTION_LENGTH, cuhnavel_question_length(sheet.start, sheet.size, entry));
    const uint64_t refusals[] = {
        refusal_of(of_sheet, CUHNAVEL_SHEET),
        call_refused(25, entry >= entries),
    };
    if (first_of(refusals, 2) != 0)
        FACT(answer == first_of(refusals, 2));
    else if (CUHNAVEL_REFUSAL(answer) != 0)
        FACT(answer == call_refused(29, true) || (answer == call_refused(28, true) && entry > MOST_CHAIN));
    else
        FACT(CUHNAVEL_LENGTH(answer) >= SHORTEST);
    write_text(entry, answer);
}
