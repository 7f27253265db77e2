#define _GNU_SOURCE
#include "threads.h"

#include <pthread.h>
#include <stdint.h>
#include <stdio.h>
#include <stdlib.h>
#include <string.h>
#include <sys/mman.h>

enum { PAGE = 4096, PATTERN = 0xa5, ALIGNED = 64 };

struct run {
    void (*function)(void *);
    void *argument;
};

static void *start(void *argument)
{
    const struct run *run = argument;
    run->function(run->argument);
    return NULL;
}

static void must(int failed, const char *what)
{
    if (failed) {
        fprintf(stderr, "stack: %s failed\n", what);
        exit(2);
    }
}

/* The lowest byte of the stacks: the page before it cannot be touched. */
static uint8_t *lowest(void)
{
    static uint8_t *pages;
    if (pages == NULL) {
        pages = mmap(NULL, PAGE + MOST_STACK, PROT_READ | PROT_WRITE, MAP_PRIVATE | MAP_ANONYMOUS, -1, 0);
        must(pages == MAP_FAILED || mprotect(pages, PAGE, PROT_NONE) != 0, "mmap");
    }
    return pages + PAGE;
}

size_t run_on_stack(size_t size, void (*function)(void *), void *argument)
{
    uint8_t *stack = lowest();
    struct run run = {function, argument};
    pthread_attr_t attributes;
    pthread_t thread;
    memset(stack, PATTERN, MOST_STACK);
    must(pthread_attr_init(&attributes), "pthread_attr_init");
    must(pthread_attr_setstack(&attributes, stack, size), "pthread_attr_setstack");
    must(pthread_create(&thread, &attributes, start, &run), "pthread_create");
    must(pthread_join(thread, NULL), "pthread_join");
    pthread_attr_destroy(&attributes);
    size_t unused = 0;
    while (unused < size && stack[unused] == PATTERN)
        unused++;
    return size - unused;
}

static void do_nothing(void *argument)
{
    (void)argument;
}

size_t thread_itself(void)
{
    size_t used = run_on_stack(MOST_STACK, do_nothing, NULL);
    return (used + ALIGNED - 1) / ALIGNED * ALIGNED; /* so that a stack of some more bytes ends as the large one does */
}
