/* Runs the two functions for texts and both forms of Compare on threads that have just as much stack as the header promises to suffice, beside what a
 * thread takes for itself. */
#include <inttypes.h>
#include <stdbool.h>
#include <stdio.h>
#include <stdlib.h>
#include <string.h>

#include "chains.h"
#include "comparing.h"
#include "cuhnavel.h"
#include "threads.h"

static struct chain chain;
static uint8_t room[sizeof chain.text];

static void call_length(void *answer)
{
    *(uint64_t *)answer = cuhnavel_question_length(chain.sheet, chain.sheet_size, chain.entry);
}

static void call_text(void *answer)
{
    *(uint64_t *)answer = cuhnavel_question_text(chain.sheet, chain.sheet_size, chain.entry, room, chain.text_size);
}

static struct function {
    const char *name;
    void (*call)(void *);
    size_t promised;
    size_t most; /* that was used so far */
} functions[] = {
    {"cuhnavel_question_length", call_length, CUHNAVEL_QUESTION_LENGTH_STACK, 0},
    {"cuhnavel_question_text", call_text, CUHNAVEL_QUESTION_TEXT_STACK, 0},
};

/* The answer is the length, and the text was written if it was to be. */
static bool right(const struct function *function, uint64_t answer)
{
    return answer == (uint64_t)chain.text_size << 16 &&
           (function->call != call_text || memcmp(room, chain.text, chain.text_size) == 0);
}

/* Calls a function on so much stack beside what the thread takes for itself, and gives how much was used. */
static size_t used(const struct function *function, const char *place, size_t stack, size_t itself)
{
    uint64_t answer = 0;
    memset(room, '_', sizeof room);
    size_t used = run_on_stack(stack + itself, function->call, &answer) - itself;
    if (!right(function, answer)) {
        printf("stack: %s, %s: the answer %" PRIx64 " or the text is wrong\n", function->name, place, answer);
        exit(1);
    }
    return used;
}

/* The function keeps to its promise: seen where there is more, and then where there is no more. */
static void keeps(struct function *function, const char *place, size_t itself)
{
    size_t most = used(function, place, MOST_STACK - itself, itself);
    if (most > function->promised) {
        printf("stack: %s, %s: takes %zu bytes, %zu are promised\n", function->name, place, most, function->promised);
        exit(1);
    }
    used(function, place, function->promised, itself);
    function->most = most > function->most ? most : function->most;
}

int main(void)
{
    size_t itself = thread_itself();
    for (uint8_t version = 1; version <= 2; version++)
        for (size_t place = 0; place < places_count; place++) {
            make_chain(&chain, version, &places[place]);
            for (size_t k = 0; k < 2; k++)
                keeps(&functions[k], places[place].name, itself);
        }
    printf("stack: ");
    for (size_t k = 0; k < 2; k++)
        printf("%s takes %zu bytes of %zu, ", functions[k].name, functions[k].most, functions[k].promised);
    printf("the thread itself %zu, over %zu chains of each version\n", itself, places_count);
    size_t most = compare_on_stack(itself);
    printf("stack: both forms of Compare take %zu bytes of %d, over %zu pairs of books at bounds 0 to 4\n", most, CUHNAVEL_COMPARE_STACK, pairs_compared());
    return 0;
}
