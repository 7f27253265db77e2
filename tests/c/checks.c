/* A C caller of the two format checks: prints each answer taken apart. It stands for phrase_out.c, the firm's C program, which document 01 says "calls
   the two checks with bytes and gets numbers". */
#include <inttypes.h>
#include <stdio.h>

#include "cuhnavel.h"

static void print(const char *name, uint64_t answer)
{
    printf("%s: refusal %" PRIu32 " part %" PRIu32 " first %" PRIu32 " second %" PRIu32 "\n", name,
           CUHNAVEL_REFUSAL(answer), CUHNAVEL_PART(answer), CUHNAVEL_FIRST(answer), CUHNAVEL_SECOND(answer));
}

int main(void)
{
    /* Document 01, example A, left: recordings 5, 5, 6, links (0,1,1), (0,1,2). */
    const uint8_t book[] = {
        0, 0, 0, 26, 1, 3, 0, 2,
        0, 0, 0, 5, 0, 0, 0, 5, 0, 0, 0, 6,
        0, 1, 1, 0, 1, 2,
    };
    /* The same in version 2. */
    const uint8_t book_2[] = {
        0, 0, 0, 28, 2, 3, 0, 2,
        0, 0, 0, 5, 0, 0, 0, 5, 0, 0, 0, 6,
        0, 0, 1, 1, 0, 0, 1, 2,
    };
    /* The first with its links exchanged. */
    const uint8_t falling_links[] = {
        0, 0, 0, 26, 1, 3, 0, 2,
        0, 0, 0, 5, 0, 0, 0, 5, 0, 0, 0, 6,
        0, 1, 2, 0, 1, 1,
    };
    /* Bound 1; entry 0: true; entry 1: "differ: stay, step 1", the step's test being entry 0. */
    const uint8_t sheet[] = {
        0, 0, 0, 17, 1, 1, 0, 2,
        1, 0,
        6, 6, 0, 1, 1, 0, 0,
    };
    /* The same in version 2. */
    const uint8_t sheet_2[] = {
        0, 0, 0, 18, 2, 1, 0, 2,
        1, 0,
        7, 6, 0, 1, 0, 1, 0, 0,
    };
    /* A header of version 3. */
    const uint8_t version_3[] = {0, 0, 0, 8, 3, 1, 0, 1};
    /* The first sheet with bound 0, for which a step is too many. */
    const uint8_t step_above_bound[] = {
        0, 0, 0, 17, 1, 0, 0, 2,
        1, 0,
        6, 6, 0, 1, 1, 0, 0,
    };

    print("book", cuhnavel_check_book(book, sizeof book));
    print("book of version 2", cuhnavel_check_book(book_2, sizeof book_2));
    print("book of version 3", cuhnavel_check_book(version_3, sizeof version_3));
    print("book, links falling", cuhnavel_check_book(falling_links, sizeof falling_links));
    print("sheet", cuhnavel_check_sheet(sheet, sizeof sheet));
    print("sheet of version 2", cuhnavel_check_sheet(sheet_2, sizeof sheet_2));
    print("sheet of version 3", cuhnavel_check_sheet(version_3, sizeof version_3));
    print("sheet, step above the bound", cuhnavel_check_sheet(step_above_bound, sizeof step_above_bound));
    return 0;
}
