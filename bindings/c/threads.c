/* Four threads that read two sets and a matrix at once, each by every call that takes a `const bit_set *` or a
 * `const bit_matrix *`, and change their own sets. Exits with 0 if all read the same. */
#include "bit_set.h"
#include <pthread.h>
#include <stdio.h>
#include <stdlib.h>

#define THREADS 4
#define LIMIT 100000
#define ROOM 1000
#define ROWS 70
#define COLUMNS 200

static bit_set *evens, *threes;
static bit_matrix *graph;

static void need(bool found_memory) {
    if (!found_memory)
        exit(3);
}

static uint64_t counts(const bit_set *set, const bit_set *other) {
    uint64_t sum = bit_set_hash(set) + bit_set_count(set) + bit_set_length(set) + bit_set_capacity(set);
    sum += bit_set_is_empty(set) + bit_set_is_subset(set, other) + bit_set_is_superset(set, other);
    sum += bit_set_is_disjoint(set, other) + bit_set_is_proper_subset(set, other) + bit_set_same_in_range(set, other, 1, 3);
    sum += bit_set_equals(set, other) + (uint64_t)bit_set_compare(set, other);
    sum += bit_set_union_count(set, other) + bit_set_intersection_count(set, other);
    return sum + bit_set_difference_count(set, other) + bit_set_symmetric_difference_count(set, other);
}

static uint64_t copies(const bit_set *set, const bit_set *other) {
    static _Thread_local size_t members[ROOM];
    static _Thread_local bit_set_block blocks[ROOM];
    static _Thread_local uint8_t bytes[ROOM];
    uint64_t sum = bit_set_copy_members(set, LIMIT / 2, members, ROOM) + members[ROOM - 1];
    sum += bit_set_copy_members_back(set, LIMIT / 2, members, ROOM) + members[ROOM - 1];
    sum += bit_set_copy_bytes(set, 1, bytes, ROOM) + bytes[ROOM - 1];
    sum += bit_set_copy_bytes_lsb(set, 1, bytes, ROOM) + bytes[ROOM - 1];
    sum += bit_set_copy_blocks(set, 1, blocks, ROOM) + blocks[ROOM - 1];
    sum += bit_set_copy_union(set, other, 1, blocks, ROOM) + blocks[ROOM - 1];
    sum += bit_set_copy_intersection(set, other, 1, blocks, ROOM) + blocks[ROOM - 1];
    sum += bit_set_copy_difference(set, other, 1, blocks, ROOM) + blocks[ROOM - 1];
    sum += bit_set_copy_symmetric_difference(set, other, 1, blocks, ROOM) + blocks[ROOM - 1];
    bit_set_lent lent = BIT_SET_NOTHING_LENT;
    bit_set_lend_blocks(set, &lent);
    for (size_t block = 0; block < lent.count; block++)
        sum += lent.blocks[block];
    return sum;
}

static uint64_t searches(const bit_set *set) {
    size_t start = 0, end = 0, gap = 0;
    uint64_t sum = bit_set_first(set) + bit_set_last(set) + bit_set_nth(set, LIMIT / 3, ROOM);
    sum += bit_set_count_in_range(set, 1, LIMIT - 1) + bit_set_contains_all_in_range(set, 2, 4);
    sum += bit_set_contains_any_in_range(set, 1, 3) + bit_set_next_run(set, LIMIT / 2, &start, &end) + start + end;
    sum += bit_set_first_gap(set, LIMIT / 2, 2, &gap) + gap;
    for (size_t number = 0; number < LIMIT; number += 7)
        sum += bit_set_contains(set, number) + bit_set_next(set, number) + bit_set_previous(set, number)
               + bit_set_next_missing(set, number);
    return sum;
}

static uint64_t rows(const bit_matrix *matrix) {
    static _Thread_local size_t columns[COLUMNS];
    static _Thread_local bit_set_block blocks[COLUMNS];
    uint64_t sum = bit_matrix_rows(matrix) + bit_matrix_columns(matrix) + bit_matrix_count_all(matrix);
    for (size_t row = 0; row < ROWS; row++) {
        sum += bit_matrix_count(matrix, row) + bit_matrix_contains(matrix, row, 2 * row);
        sum += bit_matrix_next(matrix, row, row) + bit_matrix_is_subset_row(matrix, row, 0);
        sum += bit_matrix_is_disjoint_row(matrix, row, 1) + bit_matrix_copy_blocks(matrix, row, 1, blocks, COLUMNS);
        sum += blocks[0] + bit_matrix_copy_members(matrix, row, 1, columns, COLUMNS) + columns[0];
    }
    return sum;
}

/* Calls that make new sets and matrices from these. */
static uint64_t made(const bit_set *set, const bit_set *other, const bit_matrix *matrix) {
    bit_set *own = NULL, *part = NULL, *row = NULL;
    bit_matrix *whole = NULL, *turned = NULL, *dominators = NULL, *wide = NULL;
    need(bit_set_clone(&own, set) && bit_set_copy_range(&part, other, ROOM, LIMIT / 2) && bit_set_copy(own, other));
    need(bit_set_union_with(own, set) && bit_set_intersect_with(own, other) && bit_set_difference_with(own, part));
    need(bit_set_symmetric_difference_with(own, set) && bit_set_union_changes(own, other) >= 0);
    need(bit_set_intersection_changes(own, set) >= 0 && bit_set_difference_changes(own, part) >= 0);
    need(bit_set_symmetric_difference_changes(own, other) >= 0 && bit_set_union_with_difference(own, set, other) >= 0);
    need(bit_set_union_with_intersection(own, set, part) >= 0 && bit_set_become_difference(part, own, other) >= 0);
    need(bit_matrix_clone(&whole, matrix) && bit_matrix_transpose(&turned, matrix));
    need(bit_matrix_dominators(&dominators, matrix, 0) && bit_matrix_row_to_set(&row, matrix, 1));
    need(bit_matrix_from_set(&wide, set, 2));
    bit_matrix_union_row_with(whole, row, 2);
    uint64_t sum = bit_matrix_equals(whole, matrix) + rows(whole) + bit_matrix_count_all(turned);
    sum += bit_matrix_count_all(dominators) + bit_matrix_count_all(wide) + bit_set_count(own) + bit_set_count(part);
    bit_matrix_free(whole);
    bit_matrix_free(turned);
    bit_matrix_free(dominators);
    bit_matrix_free(wide);
    bit_set_free(own);
    bit_set_free(part);
    bit_set_free(row);
    return sum;
}

static void *run(void *out) {
    uint64_t sum = counts(evens, threes) + counts(threes, evens) + copies(evens, threes) + copies(threes, evens);
    sum += searches(evens) + searches(threes) + rows(graph);
    *(uint64_t *)out = sum + made(evens, threes, graph) + made(threes, evens, graph);
    return NULL;
}

static void fill(void) {
    need(bit_set_new(&evens) && bit_set_new(&threes) && bit_matrix_new(&graph, ROWS, COLUMNS));
    for (size_t number = 0; number < LIMIT; number++) {
        need(number % 2 > 0 || bit_set_insert(evens, number) >= 0);
        need(number % 3 > 0 || bit_set_insert(threes, number) >= 0);
    }
    for (size_t row = 0; row < ROWS; row++)
        for (size_t column = row; column < COLUMNS; column += row + 1)
            bit_matrix_insert(graph, row, column);
}

int main(void) {
    pthread_t threads[THREADS];
    uint64_t sums[THREADS];
    fill();
    for (size_t i = 0; i < THREADS; i++)
        need(pthread_create(&threads[i], NULL, run, &sums[i]) == 0);
    for (size_t i = 0; i < THREADS; i++)
        pthread_join(threads[i], NULL);
    bit_set_free(evens);
    bit_set_free(threes);
    bit_matrix_free(graph);
    for (size_t i = 1; i < THREADS; i++)
        if (sums[i] != sums[0])
            return 1;
    printf("%d threads read the same\n", THREADS);
    return 0;
}
