/* Calls the library's functions for C with any arguments, for some seconds.
 *
 *     fuzz SECONDS      cases 0, 1, 2, .. until the time is over; 50,000 at least, so that all answers are seen
 *     fuzz case NUMBER  that case alone
 *
 * A case depends on its number only. The run ends at the first fact that does not hold, or where memory that was not lent is
 * touched, and says in which case.
 */
#include <inttypes.h>
#include <stdio.h>
#include <stdlib.h>
#include <string.h>
#include <time.h>

#include <sanitizer/common_interface_defs.h>

#include "calls.h"
#include "facts.h"
#include "lists.h"
#include "random.h"
#include "tally.h"

enum { LEAST_CASES = 50000 };

static uint64_t number;

static void say_case(void)
{
    fprintf(stderr, "fuzz: in case %" PRIu64 "\n", number);
}

void not_a_fact(const char *fact, const char *file, int line)
{
    fprintf(stderr, "fuzz: %s:%d: %s does not hold\n", file, line, fact);
    say_case();
    _Exit(1);
}

static void run_case(void)
{
    static void (*const calls[])(void) = {
        call_checks, call_compare, call_compare_one_way, call_truth, call_claim, call_claim,
        call_row,    call_pair,    call_links,           call_texts,
    };
    random_seed(number);
    calls[below(sizeof calls / sizeof calls[0])]();
    lists_take_back();
}

int main(int count, char **arguments)
{
    if (count < 2 || (strcmp(arguments[1], "case") == 0 && count < 3)) {
        fprintf(stderr, "fuzz: give SECONDS, or case NUMBER\n");
        return 2;
    }
    __sanitizer_set_death_callback(say_case);
    lists_make();
    if (count > 2) {
        number = strtoull(arguments[2], NULL, 10);
        run_case();
        return 0;
    }
    time_t end = time(NULL) + strtol(arguments[1], NULL, 10);
    for (number = 0; number < LEAST_CASES || time(NULL) < end; number++)
        run_case();
    printf("fuzz: %" PRIu64 " cases\n", number);
    return tally_report() ? 0 : 1;
}
