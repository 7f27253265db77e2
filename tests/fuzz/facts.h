/* What has to hold of every call. */
#ifndef FACTS_H
#define FACTS_H

/* Ends the run if a fact does not hold, and says which, and in which case. */
#define FACT(fact) ((fact) ? (void)0 : not_a_fact(#fact, __FILE__, __LINE__))

_Noreturn void not_a_fact(const char *fact, const char *file, int line);

#endif
