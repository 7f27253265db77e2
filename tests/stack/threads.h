/* Threads whose stack is lent, so that it can be seen how much of it they used. */
#ifndef THREADS_H
#define THREADS_H

#include <stddef.h>

enum { MOST_STACK = 1 << 20 };

/* Runs a function on a thread with so many bytes of stack, at most MOST_STACK, below which lies a page that cannot be touched.
 * Gives how many were used, those of the thread itself included. */
size_t run_on_stack(size_t size, void (*function)(void *), void *argument);

/* How many bytes a thread takes for itself, which lie in its stack. */
size_t thread_itself(void);

#endif
