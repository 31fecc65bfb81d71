/* The calls of CRoaring 0.2.66 over the proved Roaring bitmaps of bit_roaring.h, for programs that include
 * <roaring/roaring.h>: with `-I` for the folder that has the folder roaring, and for that of bit_roaring.h.
 *
 * Where memory runs out, the process ends, but for roaring_bitmap_overwrite, which then returns false. Lazy calls are the
 * plain ones. Copy on write is a flag that is kept and does nothing. Left out are the frozen forms
 * (roaring_bitmap_frozen_..), and what reaches into containers (roaring_array_t, ra_.., container_.., .._container_..). */
#ifndef ROARING_H
#define ROARING_H

#include "bit_roaring.h"

#include <inttypes.h>
#include <stdarg.h>
#include <stdio.h>
#include <stdlib.h>
#include <string.h>

#ifdef __cplusplus
extern "C" {
#endif

typedef bool (*roaring_iterator)(uint32_t value, void *param);
typedef bool (*roaring_iterator64)(uint64_t value, void *param);

typedef struct roaring_bitmap_s {
    bit_roaring *set;
    bool copy_on_write;
} roaring_bitmap_t;

/* Array containers are lists, and bitset containers are blocks. The bytes are those of the portable form. */
typedef struct roaring_statistics_s {
    uint32_t n_containers;
    uint32_t n_array_containers;
    uint32_t n_run_containers;
    uint32_t n_bitset_containers;
    uint32_t n_values_array_containers;
    uint32_t n_values_run_containers;
    uint32_t n_values_bitset_containers;
    uint32_t n_bytes_array_containers;
    uint32_t n_bytes_run_containers;
    uint32_t n_bytes_bitset_containers;
    uint32_t max_value;
    uint32_t min_value;
    uint64_t sum_value;
    uint64_t cardinality;
} roaring_statistics_t;

#define ROARING_PAST ((uint64_t)1 << 32)

static inline void roaring_require(bool has_memory) {
    if (!has_memory) {
        fprintf(stderr, "roaring: no memory\n");
        abort();
    }
}

/* ---- Making and freeing. */

static inline roaring_bitmap_t *roaring_of(bit_roaring *set) {
    roaring_bitmap_t *made = (roaring_bitmap_t *)malloc(sizeof *made);
    roaring_require(made != NULL && set != NULL);
    made->set = set;
    made->copy_on_write = false;
    return made;
}

static inline roaring_bitmap_t *roaring_bitmap_create(void) {
    bit_roaring *set = NULL;
    roaring_require(bit_roaring_new(&set));
    return roaring_of(set);
}

static inline roaring_bitmap_t *roaring_bitmap_create_with_capacity(uint32_t cap) {
    (void)cap;
    return roaring_bitmap_create();
}

static inline void roaring_bitmap_free(const roaring_bitmap_t *r) {
    bit_roaring_free(r->set);
    free((void *)r);
}

static inline roaring_bitmap_t *roaring_bitmap_copy(const roaring_bitmap_t *r) {
    bit_roaring *set = NULL;
    roaring_bitmap_t *made;
    roaring_require(bit_roaring_clone(&set, r->set));
    made = roaring_of(set);
    made->copy_on_write = r->copy_on_write;
    return made;
}

static inline bool roaring_bitmap_overwrite(roaring_bitmap_t *dest, const roaring_bitmap_t *src) {
    bit_roaring *set = NULL;
    if (!bit_roaring_clone(&set, src->set))
        return false;
    bit_roaring_free(dest->set);
    dest->set = set;
    dest->copy_on_write = src->copy_on_write;
    return true;
}

static inline bool roaring_bitmap_get_copy_on_write(const roaring_bitmap_t *r) { return r->copy_on_write; }
static inline void roaring_bitmap_set_copy_on_write(roaring_bitmap_t *r, bool cow) { r->copy_on_write = cow; }

/* ---- Single values. */

static inline bool roaring_bitmap_add_checked(roaring_bitmap_t *r, uint32_t x) {
    int32_t answer = bit_roaring_insert(r->set, x);
    roaring_require(answer >= 0);
    return answer == BIT_ROARING_YES;
}

static inline void roaring_bitmap_add(roaring_bitmap_t *r, uint32_t x) { (void)roaring_bitmap_add_checked(r, x); }

static inline bool roaring_bitmap_remove_checked(roaring_bitmap_t *r, uint32_t x) {
    int32_t answer = bit_roaring_remove(r->set, x);
    roaring_require(answer >= 0);
    return answer == BIT_ROARING_YES;
}

static inline void roaring_bitmap_remove(roaring_bitmap_t *r, uint32_t x) { (void)roaring_bitmap_remove_checked(r, x); }

static inline bool roaring_bitmap_contains(const roaring_bitmap_t *r, uint32_t val) {
    return bit_roaring_contains(r->set, val);
}

/* A pointer that is not NULL, for no values. */
static inline const uint32_t *roaring_values(size_t n_args, const uint32_t *vals) {
    static const uint32_t none = 0;
    return n_args > 0 ? vals : &none;
}

static inline void roaring_bitmap_add_many(roaring_bitmap_t *r, size_t n_args, const uint32_t *vals) {
    roaring_require(bit_roaring_insert_members(r->set, roaring_values(n_args, vals), n_args) == n_args);
}

static inline void roaring_bitmap_remove_many(roaring_bitmap_t *r, size_t n_args, const uint32_t *vals) {
    for (size_t k = 0; k < n_args; k++)
        roaring_bitmap_remove(r, vals[k]);
}

static inline roaring_bitmap_t *roaring_bitmap_of_ptr(size_t n_args, const uint32_t *vals) {
    roaring_bitmap_t *made = roaring_bitmap_create();
    roaring_bitmap_add_many(made, n_args, vals);
    return made;
}

static inline roaring_bitmap_t *roaring_bitmap_of(size_t n, ...) {
    roaring_bitmap_t *made = roaring_bitmap_create();
    va_list values;
    va_start(values, n);
    for (; n > 0; n--)
        roaring_bitmap_add(made, va_arg(values, uint32_t));
    va_end(values);
    return made;
}

/* ---- Ranges. Bounds above 2^32 are those of all numbers. */

static inline uint64_t roaring_bound(uint64_t bound) { return bound < ROARING_PAST ? bound : ROARING_PAST; }

static inline void roaring_bitmap_add_range_closed(roaring_bitmap_t *ra, uint32_t min, uint32_t max) {
    roaring_require(bit_roaring_insert_range(ra->set, min, (uint64_t)max + 1) >= 0);
}

static inline void roaring_bitmap_add_range(roaring_bitmap_t *ra, uint64_t min, uint64_t max) {
    if (max != min)
        roaring_bitmap_add_range_closed(ra, (uint32_t)min, (uint32_t)(max - 1));
}

static inline void roaring_bitmap_remove_range_closed(roaring_bitmap_t *ra, uint32_t min, uint32_t max) {
    roaring_require(bit_roaring_remove_range(ra->set, min, (uint64_t)max + 1) >= 0);
}

static inline void roaring_bitmap_remove_range(roaring_bitmap_t *ra, uint64_t min, uint64_t max) {
    if (max != min)
        roaring_bitmap_remove_range_closed(ra, (uint32_t)min, (uint32_t)(max - 1));
}

static inline roaring_bitmap_t *roaring_bitmap_from_range(uint64_t min, uint64_t max, uint32_t step) {
    roaring_bitmap_t *made;
    max = roaring_bound(max);
    if (step == 0 || max <= min)
        return NULL;
    made = roaring_bitmap_create();
    if (step == 1)
        roaring_bitmap_add_range(made, min, max);
    else
        for (; min < max; min += step)
            roaring_require(bit_roaring_push(made->set, (uint32_t)min) == BIT_ROARING_YES);
    return made;
}

static inline bool roaring_bitmap_contains_range(const roaring_bitmap_t *r, uint64_t range_start, uint64_t range_end) {
    return bit_roaring_contains_range(r->set, range_start, roaring_bound(range_end));
}

static inline uint64_t roaring_bitmap_range_cardinality(const roaring_bitmap_t *ra, uint64_t range_start,
                                                        uint64_t range_end) {
    return bit_roaring_range_cardinality(ra->set, range_start, range_end);
}

static inline void roaring_bitmap_flip_inplace(roaring_bitmap_t *x1, uint64_t range_start, uint64_t range_end) {
    roaring_require(bit_roaring_flip(x1->set, range_start, range_end));
}

static inline roaring_bitmap_t *roaring_bitmap_flip(const roaring_bitmap_t *x1, uint64_t range_start, uint64_t range_end) {
    roaring_bitmap_t *made = roaring_bitmap_copy(x1);
    roaring_bitmap_flip_inplace(made, range_start, range_end);
    return made;
}

/* ---- Reading a bitmap. */

static inline uint64_t roaring_bitmap_get_cardinality(const roaring_bitmap_t *ra) { return bit_roaring_len(ra->set); }
static inline bool roaring_bitmap_is_empty(const roaring_bitmap_t *ra) { return bit_roaring_is_empty(ra->set); }
static inline void roaring_bitmap_clear(roaring_bitmap_t *ra) { bit_roaring_clear(ra->set); }
static inline uint64_t roaring_bitmap_rank(const roaring_bitmap_t *bm, uint32_t x) { return bit_roaring_rank(bm->set, x); }

static inline bool roaring_bitmap_select(const roaring_bitmap_t *ra, uint32_t rank, uint32_t *element) {
    uint64_t member = bit_roaring_select(ra->set, rank);
    if (member == BIT_ROARING_NONE)
        return false;
    *element = (uint32_t)member;
    return true;
}

static inline uint32_t roaring_bitmap_minimum(const roaring_bitmap_t *bm) {
    return bit_roaring_is_empty(bm->set) ? UINT32_MAX : (uint32_t)bit_roaring_min(bm->set);
}

static inline uint32_t roaring_bitmap_maximum(const roaring_bitmap_t *bm) {
    return bit_roaring_is_empty(bm->set) ? 0 : (uint32_t)bit_roaring_max(bm->set);
}

static inline void roaring_bitmap_to_uint32_array(const roaring_bitmap_t *ra, uint32_t *ans) {
    size_t count = (size_t)bit_roaring_len(ra->set);
    if (count > 0)
        bit_roaring_copy_members(ra->set, 0, ans, count);
}

static inline bool roaring_bitmap_range_uint32_array(const roaring_bitmap_t *ra, size_t offset, size_t limit,
                                                     uint32_t *ans) {
    uint64_t first = offset <= UINT32_MAX ? bit_roaring_select(ra->set, (uint32_t)offset) : BIT_ROARING_NONE;
    if (first != BIT_ROARING_NONE && limit > 0)
        bit_roaring_copy_members(ra->set, first, ans, limit);
    return true;
}

/* Passes each value, with these upper bits, to one of the two functions, as long as that returns true. */
static inline bool roaring_each(const roaring_bitmap_t *ra, roaring_iterator call, roaring_iterator64 call64,
                                uint64_t high_bits, void *ptr) {
    uint32_t group[256];
    uint64_t from = 0;
    size_t count;
    while ((count = bit_roaring_copy_members(ra->set, from, group, 256)) > 0) {
        for (size_t k = 0; k < count; k++)
            if (!(call != NULL ? call(group[k], ptr) : call64(high_bits | group[k], ptr)))
                return false;
        from = (uint64_t)group[count - 1] + 1;
    }
    return true;
}

static inline bool roaring_iterate(const roaring_bitmap_t *ra, roaring_iterator iterator, void *ptr) {
    return roaring_each(ra, iterator, NULL, 0, ptr);
}

static inline bool roaring_iterate64(const roaring_bitmap_t *ra, roaring_iterator64 iterator, uint64_t high_bits,
                                     void *ptr) {
    return roaring_each(ra, NULL, iterator, high_bits, ptr);
}

static inline bool roaring_print(uint32_t value, void *before) {
    printf("%s%" PRIu32, *(const char **)before, value);
    *(const char **)before = ",";
    return true;
}

static inline void roaring_bitmap_printf(const roaring_bitmap_t *ra) {
    const char *before = "{";
    roaring_iterate(ra, roaring_print, (void *)&before);
    printf("%s}", bit_roaring_is_empty(ra->set) ? before : "");
}

/* How many containers of each kind there are, in place of each. */
static inline void roaring_bitmap_printf_describe(const roaring_bitmap_t *ra) {
    bit_roaring_kinds all;
    bit_roaring_statistics(ra->set, &all);
    printf("{array: %" PRIu32 ", bitset: %" PRIu32 ", run: %" PRIu32 "}", all.lists.containers, all.blocks.containers,
           all.runs.containers);
}

static inline bool roaring_sum(uint32_t value, void *sum) {
    *(uint64_t *)sum += value;
    return true;
}

static inline void roaring_bitmap_statistics(const roaring_bitmap_t *ra, roaring_statistics_t *stat) {
    bit_roaring_kinds all;
    bit_roaring_statistics(ra->set, &all);
    memset(stat, 0, sizeof *stat);
    stat->n_array_containers = all.lists.containers;
    stat->n_run_containers = all.runs.containers;
    stat->n_bitset_containers = all.blocks.containers;
    stat->n_containers = all.lists.containers + all.runs.containers + all.blocks.containers;
    stat->n_values_array_containers = (uint32_t)all.lists.members;
    stat->n_values_run_containers = (uint32_t)all.runs.members;
    stat->n_values_bitset_containers = (uint32_t)all.blocks.members;
    stat->n_bytes_array_containers = (uint32_t)all.lists.bytes;
    stat->n_bytes_run_containers = (uint32_t)all.runs.bytes;
    stat->n_bytes_bitset_containers = (uint32_t)all.blocks.bytes;
    stat->max_value = roaring_bitmap_maximum(ra);
    stat->min_value = roaring_bitmap_minimum(ra);
    roaring_iterate(ra, roaring_sum, &stat->sum_value);
    stat->cardinality = bit_roaring_len(ra->set);
}

/* ---- Forms. */

static inline bool roaring_bitmap_run_optimize(roaring_bitmap_t *r) {
    bit_roaring_kinds all;
    roaring_require(bit_roaring_optimize(r->set) >= 0);
    bit_roaring_statistics(r->set, &all);
    return all.runs.containers > 0;
}

static inline bool roaring_bitmap_remove_run_compression(roaring_bitmap_t *r) {
    int32_t answer = bit_roaring_remove_runs(r->set);
    roaring_require(answer >= 0);
    return answer == BIT_ROARING_YES;
}

/* How many bytes were given back is not counted. */
static inline size_t roaring_bitmap_shrink_to_fit(roaring_bitmap_t *r) {
    bit_roaring_shrink_to_fit(r->set);
    return 0;
}

/* ---- Two bitmaps. */

static inline bool roaring_bitmap_equals(const roaring_bitmap_t *ra1, const roaring_bitmap_t *ra2) {
    return bit_roaring_equals(ra1->set, ra2->set);
}

static inline bool roaring_bitmap_is_subset(const roaring_bitmap_t *ra1, const roaring_bitmap_t *ra2) {
    return bit_roaring_is_subset(ra1->set, ra2->set);
}

static inline bool roaring_bitmap_is_strict_subset(const roaring_bitmap_t *ra1, const roaring_bitmap_t *ra2) {
    return bit_roaring_is_proper_subset(ra1->set, ra2->set);
}

static inline bool roaring_bitmap_intersect(const roaring_bitmap_t *x1, const roaring_bitmap_t *x2) {
    return !bit_roaring_is_disjoint(x1->set, x2->set);
}

/* The calls that make a bitmap of two, that merge one in place, and that count what such a bitmap has. The second bitmap may
 * be the first, for which the result is that bitmap, or with `empties` the empty one. */
#define ROARING_MERGE(name, call, empties)                                                                             \
    static inline roaring_bitmap_t *roaring_bitmap_##name(const roaring_bitmap_t *x1, const roaring_bitmap_t *x2) {    \
        bit_roaring *set = NULL;                                                                                       \
        roaring_require(bit_roaring_##call(&set, x1->set, x2->set));                                                   \
        return roaring_of(set);                                                                                        \
    }                                                                                                                  \
    static inline void roaring_bitmap_##name##_inplace(roaring_bitmap_t *x1, const roaring_bitmap_t *x2) {             \
        if (x1 != x2)                                                                                                  \
            roaring_require(ROARING_IN_PLACE_##name(x1->set, x2->set) >= 0);                                           \
        else if (empties)                                                                                              \
            bit_roaring_clear(x1->set);                                                                                \
    }                                                                                                                  \
    static inline uint64_t roaring_bitmap_##name##_cardinality(const roaring_bitmap_t *x1, const roaring_bitmap_t *x2) { \
        return bit_roaring_##call##_len(x1->set, x2->set);                                                             \
    }
#define ROARING_IN_PLACE_and bit_roaring_intersect_with
#define ROARING_IN_PLACE_or bit_roaring_union_with
#define ROARING_IN_PLACE_xor bit_roaring_symmetric_difference_with
#define ROARING_IN_PLACE_andnot bit_roaring_difference_with
ROARING_MERGE(and, intersection, false)
ROARING_MERGE(or, union, false)
ROARING_MERGE(xor, symmetric_difference, true)
ROARING_MERGE(andnot, difference, true)
#undef ROARING_MERGE
#undef ROARING_IN_PLACE_and
#undef ROARING_IN_PLACE_or
#undef ROARING_IN_PLACE_xor
#undef ROARING_IN_PLACE_andnot

static inline double roaring_bitmap_jaccard_index(const roaring_bitmap_t *x1, const roaring_bitmap_t *x2) {
    return (double)roaring_bitmap_and_cardinality(x1, x2) / (double)roaring_bitmap_or_cardinality(x1, x2);
}

static inline roaring_bitmap_t *roaring_bitmap_or_many(size_t number, const roaring_bitmap_t **x) {
    roaring_bitmap_t *made = roaring_bitmap_create();
    for (size_t k = 0; k < number; k++)
        roaring_bitmap_or_inplace(made, x[k]);
    return made;
}

static inline roaring_bitmap_t *roaring_bitmap_or_many_heap(uint32_t number, const roaring_bitmap_t **x) {
    return roaring_bitmap_or_many(number, x);
}

static inline roaring_bitmap_t *roaring_bitmap_xor_many(size_t number, const roaring_bitmap_t **x) {
    roaring_bitmap_t *made = roaring_bitmap_create();
    for (size_t k = 0; k < number; k++)
        roaring_bitmap_xor_inplace(made, x[k]);
    return made;
}

static inline roaring_bitmap_t *roaring_bitmap_lazy_or(const roaring_bitmap_t *x1, const roaring_bitmap_t *x2,
                                                       const bool bitsetconversion) {
    (void)bitsetconversion;
    return roaring_bitmap_or(x1, x2);
}

static inline void roaring_bitmap_lazy_or_inplace(roaring_bitmap_t *x1, const roaring_bitmap_t *x2,
                                                  const bool bitsetconversion) {
    (void)bitsetconversion;
    roaring_bitmap_or_inplace(x1, x2);
}

static inline roaring_bitmap_t *roaring_bitmap_lazy_xor(const roaring_bitmap_t *x1, const roaring_bitmap_t *x2) {
    return roaring_bitmap_xor(x1, x2);
}

static inline void roaring_bitmap_lazy_xor_inplace(roaring_bitmap_t *x1, const roaring_bitmap_t *x2) {
    roaring_bitmap_xor_inplace(x1, x2);
}

static inline void roaring_bitmap_repair_after_lazy(roaring_bitmap_t *x1) { (void)x1; }

#include "roaring_bytes.h"
#include "roaring_iterators.h"

#ifdef __cplusplus
}
#endif

#endif
