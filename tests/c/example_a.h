/* Document 01, example A: left, recordings 5, 5, 6, links (0,1,1), (0,1,2), in version 1 and in version 2; right, recordings 5, 5,
   link (0,1,1). */
#ifndef EXAMPLE_A_H
#define EXAMPLE_A_H

#include <stdint.h>

static const uint8_t left[] = {
    0, 0, 0, 26, 1, 3, 0, 2,
    0, 0, 0, 5, 0, 0, 0, 5, 0, 0, 0, 6,
    0, 1, 1, 0, 1, 2,
};
static const uint8_t left_2[] = {
    0, 0, 0, 28, 2, 3, 0, 2,
    0, 0, 0, 5, 0, 0, 0, 5, 0, 0, 0, 6,
    0, 0, 1, 1, 0, 0, 1, 2,
};
static const uint8_t right[] = {
    0, 0, 0, 19, 1, 2, 0, 1,
    0, 0, 0, 5, 0, 0, 0, 5,
    0, 1, 1,
};

#endif
