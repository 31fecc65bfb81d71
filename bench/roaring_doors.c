/* The calls of the library for C that bench/roaring_doors.py times. Each line is a call, and the least processor time
 * of some rounds in nanoseconds.
 *   roaring_doors BITS      of numbers of so many bits */
#include <bit_roaring.h>
#include <stdio.h>
#include <stdlib.h>
#include <time.h>

enum { NUMBERS = 1000000, HALF = NUMBERS / 2, ROUNDS = 9 };

static uint32_t numbers[NUMBERS], ascending[NUMBERS];
static uint8_t *bytes;
static size_t size, ascend;
static bit_roaring *one, *other;

static double now(void) {
    struct timespec time;
    clock_gettime(CLOCK_PROCESS_CPUTIME_ID, &time);
    return (double)time.tv_sec * 1e9 + (double)time.tv_nsec;
}

static void require(bool done) {
    if (!done)
        exit(3);
}

static bit_roaring *made(const uint32_t *members, size_t count) {
    bit_roaring *set = NULL;
    require(bit_roaring_from_members(&set, members, count));
    return set;
}

static bit_roaring *look_up(void) {
    size_t found = 0;
    for (size_t at = HALF; at < NUMBERS; at++)
        found += bit_roaring_contains(one, numbers[at]);
    require(found < NUMBERS);
    return NULL;
}

static bit_roaring *insert(void) {
    bit_roaring *set = made(numbers, 0);
    for (size_t at = 0; at < HALF; at++)
        require(bit_roaring_insert(set, numbers[at]) >= 0);
    return set;
}

static bit_roaring *of_array(void) { return made(numbers, NUMBERS); }

static bit_roaring *of_ascending(void) {
    size_t appended;
    bit_roaring *set = made(numbers, 0);
    require(bit_roaring_append_members(set, ascending, ascend, &appended) == BIT_ROARING_YES);
    return set;
}

static bit_roaring *unite(void) {
    bit_roaring *set = NULL;
    require(bit_roaring_union(&set, one, other));
    return set;
}

static bit_roaring *intersect(void) {
    bit_roaring *set = NULL;
    require(bit_roaring_intersection(&set, one, other));
    return set;
}

static bit_roaring *serialize(void) {
    require(bit_roaring_serialize(one, bytes, size) == BIT_ROARING_YES);
    return NULL;
}

static bit_roaring *deserialize(void) {
    size_t used;
    bit_roaring *set = NULL;
    require(bit_roaring_deserialize(&set, bytes, size, &used) == BIT_ROARING_YES);
    return set;
}

static bit_roaring *walk(void) {
    uint32_t group[256];
    uint64_t from = 0, sum = 0;
    size_t count;
    while ((count = bit_roaring_copy_members(one, from, group, 256)) > 0) {
        for (size_t at = 0; at < count; at++)
            sum += group[at];
        from = (uint64_t)group[count - 1] + 1;
    }
    require(sum > 0);
    return NULL;
}

static void row(const char *name, bit_roaring *(*call)(void)) {
    double least = 1e18;
    for (int round = 0; round < ROUNDS; round++) {
        double start = now();
        bit_roaring *set = call();
        double taken = now() - start;
        least = taken < least ? taken : least;
        bit_roaring_free(set);
    }
    printf("%s %.0f\n", name, least);
}

static int by_size(const void *a, const void *b) {
    uint32_t x = *(const uint32_t *)a, y = *(const uint32_t *)b;
    return (x > y) - (x < y);
}

int main(int count, char **arguments) {
    require(count == 2);
    int bits = atoi(arguments[1]);
    for (uint32_t at = 0; at < NUMBERS; at++)
        ascending[at] = numbers[at] = at * UINT32_C(2654435761) >> (32 - bits);
    qsort(ascending, NUMBERS, sizeof *ascending, by_size);
    for (size_t at = 0; at < NUMBERS; at++)
        if (!ascend || ascending[at] > ascending[ascend - 1])
            ascending[ascend++] = ascending[at];
    one = made(numbers, HALF);
    other = made(numbers + HALF / 2, HALF);
    size = bit_roaring_serialized_size(one);
    require((bytes = malloc(size)) != NULL);
    row("in", look_up);
    row("add", insert);
    row("array", of_array);
    row("ascending", of_ascending);
    row("or", unite);
    row("and", intersect);
    serialize();
    row("serialize", serialize);
    row("deserialize", deserialize);
    row("walk", walk);
}
