/* What the tests with random calls on Roaring bitmaps share: a table of which numbers are in, by places of four keys each. */
#include <stdbool.h>
#include <stddef.h>

#define KEY 65536
#define LIMIT (4 * KEY)
#define PAST ((uint64_t)1 << 32)

static size_t next_place(const bool *table, size_t place) {
    while (place < LIMIT && !table[place])
        place++;
    return place;
}

static size_t count_in(const bool *table, size_t start, size_t end) {
    size_t count = 0;
    for (; start < end; start++)
        count += table[start];
    return count;
}

/* A place near others: many are in one quarter, and so their container has blocks. */
static size_t draw_place(void) { return draw(3) == 0 ? draw(LIMIT) : KEY + draw(KEY); }
