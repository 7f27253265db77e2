/* Calls of the library's functions with any arguments, and what has to hold of their answers and of what was lent. */
#ifndef CALLS_H
#define CALLS_H

/* The checks alone. */
void call_checks(void);

void call_compare(void);
void call_compare_one_way(void);
void call_truth(void);
void call_claim(void);

/* Row and its word. */
void call_row(void);

void call_pair(void);
void call_links(void);

/* Question length and question text. */
void call_texts(void);

#endif
