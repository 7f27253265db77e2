/* Compare on lent stacks. */
#ifndef COMPARING_H
#define COMPARING_H

#include <stddef.h>

/* Runs both forms on books of which the ways are many, on just as much stack as the header promises to suffice beside what a thread takes for itself, and
 * gives the most that was used. */
size_t compare_on_stack(size_t itself);

/* How many pairs of books that were, at each bound and in each form. */
size_t pairs_compared(void);

#endif
