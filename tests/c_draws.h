/* What the tests with random calls for C share: numbers that look random and are the same in each run, and a check. */
#include <stdbool.h>
#include <stddef.h>
#include <stdio.h>
#include <stdlib.h>

static unsigned long state = 1;

static size_t draw(size_t below) {
    state = (state * 1103515245 + 12345) & 0x7fffffff;
    return (state >> 8) % below;
}

/* Ends the program where this does not hold, and writes where that is. */
#define CHECK(holds)                                                                                                   \
    do {                                                                                                               \
        if (!(holds)) {                                                                                                \
            printf("%s:%d: another answer than the table's\n", __FILE__, __LINE__);                                    \
            exit(1);                                                                                                   \
        }                                                                                                              \
    } while (0)
