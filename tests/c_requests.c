/* How often each call for C that makes a set or a matrix asks for memory, and for how many bytes, held to what that
 * takes: the box, its blocks, and of a set, where these are many, their summary. Then each request fails in turn: the
 * call returns false, puts nothing out and keeps no memory. The set and the matrix that it was given stay as they were.
 *
 * Linked with -Wl,--wrap=malloc,--wrap=realloc,--wrap=free. It writes a line for each fault, and ends with status 1
 * where there is one. */
#include "bit_set.h"

#include <stdint.h>
#include <stdio.h>

/* The most bytes that a box may have. */
#define BOX 128

void *__real_malloc(size_t size);
void *__real_realloc(void *old, size_t size);
void __real_free(void *old);
void *__wrap_malloc(size_t size);
void *__wrap_realloc(void *old, size_t size);
void __wrap_free(void *old);

static size_t requests, bytes, failing;
static long live;
static int faults;

static int fails(size_t size) {
    requests += 1;
    bytes += size;
    return requests == failing;
}

void *__wrap_malloc(size_t size) {
    void *made = fails(size) ? NULL : __real_malloc(size);
    live += made != NULL;
    return made;
}

void *__wrap_realloc(void *old, size_t size) {
    void *made = fails(size) ? NULL : __real_realloc(old, size);
    live += old == NULL && made != NULL;
    return made;
}

void __wrap_free(void *old) {
    live -= old != NULL;
    __real_free(old);
}

static void fault(const char *name, const char *what) {
    printf("%s: %s\n", name, what);
    faults += 1;
}

/* How many blocks a set of this length has, and how many their summary, which few blocks have none of. */
static size_t blocks_of(size_t length) {
    size_t width = 8 * sizeof(bit_set_block);
    return length / width + (length % width > 0);
}

static size_t summary_of(size_t blocks) { return blocks > 32 * sizeof(bit_set_block) ? blocks_of(blocks) : 0; }

/* A set of length 1,000,000, or of this length, with a member at the end, that a call has to itself. */
static bit_set *with_last(size_t length) {
    bit_set *set = NULL;
    if (bit_set_new(&set) && (length == 0 || bit_set_insert(set, length - 1) == 1)) {
        return set;
    }
    fault("with_last", "found no memory");
    return set;
}

/* A set and a matrix, either of which may be none: what a call is given, and what it puts out. */
struct pair {
    bit_set *set;
    bit_matrix *matrix;
};

static void free_both(struct pair *pair) {
    bit_set_free(pair->set);
    bit_matrix_free(pair->matrix);
}

/* How many rows and columns the matrix has that each call is given. */
#define ROWS 100
#define COLUMNS 1000

/* A set of this length, and a matrix whose rows have an edge each to the next. */
static struct pair given_to(size_t length) {
    struct pair given = {with_last(length), NULL};
    bool done = bit_matrix_new(&given.matrix, ROWS, COLUMNS);
    for (size_t row = 0; done && row < ROWS; row++) {
        done = bit_matrix_insert(given.matrix, row, row + 1);
    }
    if (!done) {
        fault("given_to", "found no memory");
    }
    return given;
}

static const uint8_t some_bytes[125000];

static const size_t members[] = {3, 999999, 70, 3};

#define CALL(name, made)                                                                                               \
    static bool name(struct pair *out, const struct pair *given) {                                                     \
        (void)given;                                                                                                   \
        return made;                                                                                                   \
    }

CALL(makes_none, bit_set_new(&out->set))
CALL(makes_short, bit_set_with_capacity(&out->set, 1000))
CALL(makes_long, bit_set_with_capacity(&out->set, 1000000))
CALL(makes_of_bytes, bit_set_from_bytes(&out->set, some_bytes, sizeof some_bytes))
CALL(makes_of_no_members, bit_set_from_members(&out->set, members, 0))
CALL(makes_of_one_member, bit_set_from_members(&out->set, members, 1))
CALL(makes_of_members, bit_set_from_members(&out->set, members, 4))
CALL(clones, bit_set_clone(&out->set, given->set))
CALL(splits_inside, bit_set_split_off(&out->set, given->set, 999))
CALL(splits_all, bit_set_split_off(&out->set, given->set, 0))
CALL(splits_none, bit_set_split_off(&out->set, given->set, 1000000))
CALL(copies_range, bit_set_copy_range(&out->set, given->set, 999, 500000))
CALL(copies_no_range, bit_set_copy_range(&out->set, given->set, 1000, 999))
CALL(makes_matrix, bit_matrix_new(&out->matrix, 300, 1000))
CALL(makes_no_rows, bit_matrix_new(&out->matrix, 0, 1000))
CALL(makes_of_set, bit_matrix_from_set(&out->matrix, given->set, 3))
CALL(clones_matrix, bit_matrix_clone(&out->matrix, given->matrix))
CALL(transposes, bit_matrix_transpose(&out->matrix, given->matrix))
CALL(finds_dominators, bit_matrix_dominators(&out->matrix, given->matrix, 0))
CALL(makes_of_row, bit_matrix_row_to_set(&out->set, given->matrix, 7))

/* The calls, the length of the set that each is given, how many rows it makes, 0 of a set, and the length of what it
 * takes memory for, or of each row. */
static const struct row {
    const char *name;
    bool (*call)(struct pair *out, const struct pair *given);
    size_t given, rows, made;
} rows[] = {
    {"new", makes_none, 0, 0, 0},
    {"with_capacity of 1,000", makes_short, 0, 0, 1000},
    {"with_capacity of 1,000,000", makes_long, 0, 0, 1000000},
    {"from_bytes", makes_of_bytes, 0, 0, 1000000},
    {"from_members of none", makes_of_no_members, 0, 0, 0},
    {"from_members of one", makes_of_one_member, 0, 0, 4},
    {"from_members", makes_of_members, 0, 0, 1000000},
    {"clone of length 0", clones, 0, 0, 0},
    {"clone", clones, 1000000, 0, 1000000},
    {"split_off inside", splits_inside, 1000000, 0, 1000000},
    {"split_off at 0", splits_all, 1000000, 0, 0},
    {"split_off at the end", splits_none, 1000000, 0, 0},
    {"copy_range", copies_range, 1000000, 0, 500000},
    {"copy_range of none", copies_no_range, 1000000, 0, 0},
    {"new of a matrix", makes_matrix, 0, 300, 1000},
    {"new of a matrix with no rows", makes_no_rows, 0, 0, 0},
    {"from_set", makes_of_set, 1000000, 3, 1000000},
    {"clone of a matrix", clones_matrix, 0, ROWS, COLUMNS},
    {"transpose", transposes, 0, COLUMNS, ROWS},
    {"dominators", finds_dominators, 0, ROWS, ROWS},
    {"row_to_set", makes_of_row, 0, 0, COLUMNS},
};

/* Makes a call with one of its requests failing, or none where that is 0, and returns how many there were. */
static size_t count_of(const struct row *row, size_t at) {
    size_t width = blocks_of(row->made), blocks = row->rows > 0 ? row->rows * width : width;
    size_t summary = row->rows > 0 ? 0 : summary_of(blocks);
    struct pair given = given_to(row->given), out = {NULL, NULL};
    long before = live;
    requests = bytes = 0;
    failing = at;
    bool done = row->call(&out, &given);
    failing = 0;
    size_t asked = requests, most = (blocks + summary) * sizeof(bit_set_block) + BOX;
    if (done != (at == 0 || at > asked) || done != (out.set != NULL || out.matrix != NULL)) {
        fault(row->name, "returns the other answer");
    }
    if (done && (asked > 1u + (blocks > 0) + (summary > 0) || bytes > most)) {
        fault(row->name, "asks for more memory than what it makes takes");
    }
    bool stays = bit_set_count(given.set) == (row->given > 0) && bit_set_length(given.set) == row->given &&
                 bit_matrix_count_all(given.matrix) == ROWS;
    if (!done && (live != before || !stays)) {
        fault(row->name, "leaves another state where it found no memory");
    }
    free_both(&out);
    free_both(&given);
    return asked;
}

int main(void) {
    for (size_t k = 0; k < sizeof rows / sizeof *rows; k++) {
        size_t asked = count_of(&rows[k], 0);
        for (size_t at = 1; at <= asked; at++) {
            count_of(&rows[k], at);
        }
    }
    if (live != 0) {
        fault("all calls", "some memory was not given back");
    }
    return faults > 0;
}
