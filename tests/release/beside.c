/* Makes the same random calls on two shared objects of the library, and compares what each returns and leaves. It ends
 * with status 1 at the first difference, and writes where that is.
 *   beside OBJECT OBJECT [ROUNDS]      of some twelve calls of each; 5000 where it is not said */
#define _GNU_SOURCE
#include "bit_set.h"
#include "c_draws.h"

#include <dlfcn.h>
#include <string.h>

#define LIMIT 20000
#define SETS 3
#define ROWS 40

/* What one of the objects has made. */
struct side {
    void *object;
    bit_set *sets[SETS];
    bit_matrix *matrix;
};

static struct side sides[2];

/* The call of this name in the object of a side. */
#define OF(side, name) ((__typeof__(&(name)))found((side)->object, #name))
/* That it returns the same on both sides. */
#define SAME(name, ...)                                                                                                \
    do {                                                                                                               \
        struct side *s = &sides[0];                                                                                    \
        __typeof__(OF(s, name)(__VA_ARGS__)) first = OF(s, name)(__VA_ARGS__);                                         \
        s = &sides[1];                                                                                                 \
        CHECK(first == OF(s, name)(__VA_ARGS__));                                                                      \
    } while (0)
/* The same of a call that returns nothing. */
#define BOTH(name, ...)                                                                                                \
    for (struct side *s = sides; s < sides + 2; s++)                                                                   \
    OF(s, name)(__VA_ARGS__)

static void *found(void *object, const char *name) {
    void *at = dlsym(object, name);
    if (at == NULL) {
        printf("%s\n", dlerror());
        exit(1);
    }
    return at;
}

static void changes(size_t k) {
    size_t n = draw(LIMIT), end = draw(LIMIT);
    bool bit = draw(2) == 1;
    SAME(bit_set_insert, s->sets[k], n);
    SAME(bit_set_toggle, s->sets[k], end);
    SAME(bit_set_set, s->sets[k], n / 2, bit);
    SAME(bit_set_remove, s->sets[k], end / 3);
    if (draw(8) == 0)
        SAME(bit_set_insert_range, s->sets[k], n, end);
    if (draw(8) == 0)
        SAME(bit_set_toggle_range, s->sets[k], n, end);
    if (draw(6) == 0)
        BOTH(bit_set_remove_range, s->sets[k], n, end);
    if (draw(8) == 0)
        BOTH(bit_set_shift_down, s->sets[k], n % 200);
    if (draw(100) == 0)
        BOTH(bit_set_reset, s->sets[k]);
}

static void merges(size_t k) {
    size_t l = (k + 1) % SETS, m = (k + 2) % SETS, call = draw(7);
    if (call == 0)
        SAME(bit_set_union_changes, s->sets[k], s->sets[l]);
    else if (call == 1)
        SAME(bit_set_intersection_changes, s->sets[k], s->sets[l]);
    else if (call == 2)
        SAME(bit_set_difference_changes, s->sets[k], s->sets[l]);
    else if (call == 3)
        SAME(bit_set_symmetric_difference_changes, s->sets[k], s->sets[l]);
    else if (call == 4)
        SAME(bit_set_union_with_difference, s->sets[k], s->sets[l], s->sets[m]);
    else if (call == 5)
        SAME(bit_set_union_with_intersection, s->sets[k], s->sets[l], s->sets[m]);
    else
        SAME(bit_set_become_difference, s->sets[k], s->sets[l], s->sets[m]);
    SAME(bit_set_union_count, s->sets[k], s->sets[l]);
    SAME(bit_set_intersection_count, s->sets[k], s->sets[l]);
    SAME(bit_set_difference_count, s->sets[k], s->sets[l]);
    SAME(bit_set_symmetric_difference_count, s->sets[k], s->sets[l]);
    SAME(bit_set_compare, s->sets[k], s->sets[l]);
    SAME(bit_set_is_subset, s->sets[k], s->sets[l]);
    SAME(bit_set_is_disjoint, s->sets[k], s->sets[l]);
    SAME(bit_set_equals, s->sets[k], s->sets[l]);
}

static void reads(size_t k) {
    size_t n = draw(LIMIT), skipped = draw(20);
    SAME(bit_set_contains, s->sets[k], n);
    SAME(bit_set_next, s->sets[k], n);
    SAME(bit_set_previous, s->sets[k], n);
    SAME(bit_set_next_missing, s->sets[k], n);
    SAME(bit_set_nth, s->sets[k], n, skipped);
    SAME(bit_set_count, s->sets[k]);
    SAME(bit_set_hash, s->sets[k]);
    SAME(bit_set_last, s->sets[k]);
    SAME(bit_set_length, s->sets[k]);
    SAME(bit_set_capacity, s->sets[k]);
}

/* Every member, by what is copied of them. */
static void members(size_t k) {
    static size_t copied[2][LIMIT];
    size_t counts[2];
    for (size_t side = 0; side < 2; side++)
        counts[side] = OF(&sides[side], bit_set_copy_members)(sides[side].sets[k], 0, copied[side], LIMIT);
    CHECK(counts[0] == counts[1] && memcmp(copied[0], copied[1], counts[0] * sizeof(size_t)) == 0);
}

static void matrices(void) {
    size_t row = draw(ROWS), other = draw(ROWS), column = draw(ROWS);
    SAME(bit_matrix_insert, s->matrix, row, column);
    SAME(bit_matrix_remove, s->matrix, other, column / 2);
    SAME(bit_matrix_union_rows, s->matrix, row, other);
    SAME(bit_matrix_difference_rows, s->matrix, other, column);
    SAME(bit_matrix_is_subset_row, s->matrix, column, row);
    SAME(bit_matrix_is_disjoint_row, s->matrix, column, other);
    SAME(bit_matrix_next, s->matrix, row, column);
    SAME(bit_matrix_count_all, s->matrix);
    if (draw(50) == 0)
        BOTH(bit_matrix_transitive_closure, s->matrix);
    if (draw(20) == 0)
        BOTH(bit_matrix_clear_row, s->matrix, other);
}

int main(int count, char **words) {
    size_t rounds = count > 3 ? strtoul(words[3], NULL, 10) : 5000;
    CHECK(count >= 3);
    for (size_t side = 0; side < 2; side++) {
        sides[side].object = dlopen(words[1 + side], RTLD_NOW | RTLD_LOCAL);
        CHECK(sides[side].object != NULL);
        for (size_t k = 0; k < SETS; k++)
            CHECK(OF(&sides[side], bit_set_new)(&sides[side].sets[k]));
        CHECK(OF(&sides[side], bit_matrix_new)(&sides[side].matrix, ROWS, ROWS));
    }
    CHECK(sides[0].object != sides[1].object);
    for (size_t round = 0; round < rounds; round++) {
        size_t k = draw(SETS);
        changes(k);
        reads(k);
        if (draw(4) == 0)
            merges(k);
        if (draw(4) == 0)
            matrices();
        if (draw(100) == 0)
            members(k);
    }
    BOTH(bit_matrix_free, s->matrix);
    for (size_t k = 0; k < SETS; k++)
        BOTH(bit_set_free, s->sets[k]);
    return 0;
}
