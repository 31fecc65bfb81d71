/* Sets of whole numbers as bits, and matrices of bits, every call of which is proved. README.md of crates/bit_set_c says
 * what is proved, and how to link it. Here blocks have 64 bits. The calls exist over blocks of 32 bits and of 64, each in
 * its own header, and a program may use both; capacities come in whole blocks.
 *
 *   Making and freeing      new, with_capacity, clone, from_bytes, from_bytes_lsb, from_members, split_off, copy_range,
 *                           free
 *   Single numbers          insert, insert_members, remove, toggle, set, contains
 *   Ends and searches       first, last, pop_first, pop_last, next, previous, next_missing, nth, next_run, first_gap;
 *                           BIT_SET_FOR_EACH, BIT_SET_FOR_EACH_RUN
 *   Ranges                  insert_range, toggle_range, remove_range, contains_all_in_range, contains_any_in_range,
 *                           count_in_range
 *   Copies                  copy_members, copy_members_back, copy_bytes, copy_bytes_lsb, copy_blocks, put_blocks
 *   Blocks in place         lend_blocks
 *   Reading a set           count, is_empty, length, capacity, hash
 *   Two sets, read          is_subset, is_proper_subset, is_superset, is_disjoint, same_in_range, equals, compare,
 *                           union_count, intersection_count, difference_count, symmetric_difference_count, copy_union,
 *                           copy_intersection, copy_difference, copy_symmetric_difference
 *   Two sets, in place      union_with, intersect_with, difference_with, symmetric_difference_with, union_changes,
 *                           intersection_changes, difference_changes, symmetric_difference_changes,
 *                           union_with_difference, union_with_intersection, become_difference, append, copy
 *   A whole set             truncate, make_empty, reset, shift_up, shift_down
 *   Capacity                reserve, reserve_exact, shrink_to_fit
 *   Roaring bitmaps         from_roaring, to_roaring; bit_roaring.h has all others
 *
 * and those on matrices, whose names begin with bit_matrix_:
 *
 *   Making and freeing      new, from_set, clone, transpose, row_to_set, free
 *   Rows and columns        rows, columns, contains, insert, remove, count, count_all, next; BIT_MATRIX_FOR_EACH
 *   Whole rows              copy_members, copy_blocks, is_subset_row, is_disjoint_row, row_equals, union_rows,
 *                           intersect_rows, difference_rows, union_row_with, insert_range, fill_row, clear_row
 *   Whole matrices          equals, transitive_closure, reflexive_transitive_closure, dominators
 *
 * What the caller must ensure, in Rust's terms:
 *
 *   bit_set *          a Box if it is given to `bit_set_free`, and otherwise a &mut: it comes from a call that made it, is
 *                      not freed yet, and no other call uses the same set during the call.
 *   const bit_set *    a &: the same, but other calls may read the set meanwhile, also in other threads. Nothing is
 *                      written to the set.
 *   bit_set **         a place that holds NULL. A call that returns true stores a set there, which must be freed once;
 *                      a call that returns false leaves NULL.
 *   bit_matrix         as for a bit_set: `bit_matrix *`, `const bit_matrix *` and `bit_matrix **`.
 *   bit_set_lent *     a place that holds BIT_SET_NOTHING_LENT, or blocks that are still lent.
 *   T *, size_t        this many values one after another, none of them part of a set, which only this call writes, or
 *                      with `const` no call. The pointer is never NULL, even if there are no values.
 *
 * So the sets of a call must differ if one of them is not `const`; if both are `const`, they may be the same set. Each
 * group of calls below says which it is. If BIT_SET_CHECKED is defined before this header, a call that is given the same
 * set where two are required ends the process with a message. NULL for a set, or for a place where one is stored, is an
 * error of the caller in every call except `bit_set_free`, which then does nothing. Any number may be given: each call
 * says what it does with one that fits no set.
 *
 * A call may allocate by malloc and realloc, which together with free must be one allocator. No call may be made from a
 * signal handler, or in a forked child of a process with threads.
 *
 * No call ends the process. `false` means that memory ran out, and that nothing changed unless stated otherwise below.
 *
 * Costs are given in blocks. If there are many blocks, a set keeps a summary, a bit for each block that says whether it
 * is zero: a call that uses the summary reads one bit for a zero block.
 */
#ifndef BIT_SET_H
#define BIT_SET_H

#include <stdbool.h>
#include <stddef.h>
#include <stdint.h>

#ifdef __cplusplus
extern "C" {
#endif

#define BIT_SET_VERSION "0.12.0"

/* The number at the end of the shared object's name. If it changes, programs must be rebuilt: a call is gone, or means
 * something else. */
#define BIT_SET_ABI 0

/* A call that takes pointers, none of which may be NULL; and one that may also fail, so that its result must be used. */
#if defined(__GNUC__) || defined(__clang__)
#define BIT_SET_CALL __attribute__((nonnull))
#define BIT_SET_MAY_FAIL __attribute__((nonnull, warn_unused_result))
#else
#define BIT_SET_CALL
#define BIT_SET_MAY_FAIL
#endif

/* A set of numbers below SIZE_MAX. It has a length, which is above each member, and a capacity, which is at least the
 * length: inserting a number below the capacity allocates nothing. */
typedef struct bit_set bit_set;

typedef uint64_t bit_set_block;

/* The results of calls that return an `int32_t`: a number below 0 if they failed, and then nothing changed. */
enum bit_set_answer {
    BIT_SET_NO_ELEMENT = -2, /* SIZE_MAX is in no set, and no number above UINT32_MAX in a Roaring bitmap */
    BIT_SET_NO_MEMORY = -1,
    BIT_SET_NO = 0,
    BIT_SET_YES = 1
};

/* The result of calls that search for a member if there is none: no set has this number. */
#define BIT_SET_NONE SIZE_MAX

/* ---- Making and freeing. Each writes the blocks of the set that it makes once. */

/* An empty set. Its length and its capacity are 0. */
bool bit_set_new(bit_set **out) BIT_SET_MAY_FAIL;

/* An empty set of this length. */
bool bit_set_with_capacity(bit_set **out, size_t length) BIT_SET_MAY_FAIL;

/* A set with the same members, of the same length. */
bool bit_set_clone(bit_set **out, const bit_set *set) BIT_SET_MAY_FAIL;

/* The set of the bits that are 1, those of each byte counted from the highest. Its length is 8 times the count. Also
 * false if that is above SIZE_MAX. */
bool bit_set_from_bytes(bit_set **out, const uint8_t *bytes, size_t count) BIT_SET_MAY_FAIL;

/* The same with the bits of each byte counted from the lowest, as in Java's BitSet.valueOf, Arrow and NumPy's little
 * order. */
bool bit_set_from_bytes_lsb(bit_set **out, const uint8_t *bytes, size_t count) BIT_SET_MAY_FAIL;

/* The set of these numbers, which may be in any order. It allocates once, for what the greatest of them needs. Also false
 * if one of them is SIZE_MAX. */
bool bit_set_from_members(bit_set **out, const size_t *members, size_t count) BIT_SET_MAY_FAIL;

/* Splits a set: the members below `at` stay, and the others go into a new set. */
bool bit_set_split_off(bit_set **out, bit_set *set, size_t at) BIT_SET_MAY_FAIL;

/* A set of the members that are at least `start` and below `end`. Its length is at most `end`. */
bool bit_set_copy_range(bit_set **out, const bit_set *set, size_t start, size_t end) BIT_SET_MAY_FAIL;

/* Gives the memory back. Does nothing for NULL. */
void bit_set_free(bit_set *set);

/* ---- Single numbers. Constant time for each, unless the set grows. */

/* Inserts a number. BIT_SET_YES if it is new, BIT_SET_NO if it was present, BIT_SET_NO_MEMORY, or BIT_SET_NO_ELEMENT if
 * it is SIZE_MAX. */
int32_t bit_set_insert(bit_set *set, size_t value) BIT_SET_MAY_FAIL;

/* Inserts numbers, one by one, up to the first that cannot be inserted, because memory runs out or it is SIZE_MAX. Returns
 * how many were inserted: `count` if all were. */
size_t bit_set_insert_members(bit_set *set, const size_t *members, size_t count) BIT_SET_MAY_FAIL;

/* Removes a number. Returns whether it was present. */
bool bit_set_remove(bit_set *set, size_t value) BIT_SET_CALL;

/* Removes a number if it is present, and inserts it if not. BIT_SET_YES if it is present now, BIT_SET_NO if not, or a
 * number below 0 as from `bit_set_insert`. */
int32_t bit_set_toggle(bit_set *set, size_t value) BIT_SET_MAY_FAIL;

/* Inserts a number if `bit` is true, and removes it if not. BIT_SET_YES if that changed the set, BIT_SET_NO if not, or, if
 * `bit` is true, a number below 0 as from `bit_set_insert`. */
int32_t bit_set_set(bit_set *set, size_t value, bool bit) BIT_SET_MAY_FAIL;

/* Whether the number is a member. Any number may be given. */
bool bit_set_contains(const bit_set *set, size_t value) BIT_SET_CALL;

/* ---- Ends and searches. BIT_SET_NONE stands for no member. None of these allocates. They use the summary, except
 * `bit_set_next_missing`. */

/* The least and the greatest member, or BIT_SET_NONE if the set is empty. */
size_t bit_set_first(const bit_set *set) BIT_SET_CALL;
size_t bit_set_last(const bit_set *set) BIT_SET_CALL;

/* Remove the least or the greatest member and return it, or BIT_SET_NONE if the set is empty. The length stays. Removing
 * all members by `bit_set_pop_first` goes through the summary once. */
size_t bit_set_pop_first(bit_set *set) BIT_SET_CALL;
size_t bit_set_pop_last(bit_set *set) BIT_SET_CALL;

/* The least member that is `from` or above, or BIT_SET_NONE if there is none. To iterate over many members,
 * `bit_set_copy_members` is faster. */
size_t bit_set_next(const bit_set *set, size_t from) BIT_SET_CALL;

/* The greatest member below `end`, or BIT_SET_NONE if there is none. */
size_t bit_set_previous(const bit_set *set, size_t end) BIT_SET_CALL;

/* The least number that is `from` or above and not a member. There always is one, since SIZE_MAX is not a member. Reads
 * each block from that of `from` to that of the result. */
size_t bit_set_next_missing(const bit_set *set, size_t from) BIT_SET_CALL;

/* The member at or above `from` that exactly `n` other members at or above `from` precede, or BIT_SET_NONE if there is
 * none. Skips blocks by their counts. */
size_t bit_set_nth(const bit_set *set, size_t from, size_t n) BIT_SET_CALL;

/* The first run of members at or above `from`, which is the longest range of numbers that are all members: `*start` is its
 * first one, and `*end` one more than its last. A run that begins below `from` is cut there. False if no member is `from`
 * or above; then nothing is written. Reads each block from that of `from` to that of `*end`. */
bool bit_set_next_run(const bit_set *set, size_t from, size_t *start, size_t *end) BIT_SET_CALL;

/* The least number at or above `from` at which `count` absent numbers in a row begin; `from` itself if `count` is 0. False
 * if there is no such place below SIZE_MAX; then nothing is written. At most one pass. */
bool bit_set_first_gap(const bit_set *set, size_t from, size_t count, size_t *gap) BIT_SET_CALL;

/* A loop over the members in ascending order, which declares the name `member`. The set may be changed in it: the loop
 * continues at the next member of the changed set. */
#define BIT_SET_FOR_EACH(member, set)                                                                                  \
    for (size_t member = bit_set_first(set); member != BIT_SET_NONE; member = bit_set_next(set, member + 1))

/* The same over the runs of members, which declares the names `start` and `end`. */
#define BIT_SET_FOR_EACH_RUN(start, end, set)                                                                          \
    for (size_t start = 0, end = 0; bit_set_next_run(set, end, &start, &end);)

/* ---- Ranges: the numbers that are at least `start` and below `end`, and none if `end` is `start` or below. Each block of
 * the range is read or written at most once, and no other except those that a growth adds. */

/* Insert each number of the range; or remove it if it is present and insert it if not. The length becomes at least `end`,
 * unless the range is empty. Neither fails if `end` is at most the capacity. */
bool bit_set_insert_range(bit_set *set, size_t start, size_t end) BIT_SET_MAY_FAIL;
bool bit_set_toggle_range(bit_set *set, size_t start, size_t end) BIT_SET_MAY_FAIL;

/* Removes each number of the range. The length stays. */
void bit_set_remove_range(bit_set *set, size_t start, size_t end) BIT_SET_CALL;

/* Whether every number of the range is a member, which is true of an empty range; and whether any number of it is. */
bool bit_set_contains_all_in_range(const bit_set *set, size_t start, size_t end) BIT_SET_CALL;
bool bit_set_contains_any_in_range(const bit_set *set, size_t start, size_t end) BIT_SET_CALL;

/* How many numbers of the range are members. */
size_t bit_set_count_in_range(const bit_set *set, size_t start, size_t end) BIT_SET_CALL;

/* ---- Copies. One step for each value that is copied; a search for members uses the summary. */

/* Copies the members at or above `from`, in ascending order, at most `room` of them. Returns how many; later values are
 * unchanged. To continue, pass the last one plus 1. */
size_t bit_set_copy_members(const bit_set *set, size_t from, size_t *members, size_t room) BIT_SET_CALL;

/* Copies the members below `end`, in descending order, at most `room` of them. Returns how many; later values are
 * unchanged. To continue, pass the last one. */
size_t bit_set_copy_members_back(const bit_set *set, size_t end, size_t *members, size_t room) BIT_SET_CALL;

/* Copies the bytes from byte `from` on, at most `room` of them. Returns how many; later values are unchanged. There
 * is a bit for each number below the length, and zeros up to the end of the last byte: number n is a member if bit n % 8
 * of byte n / 8, counted from the highest, is 1. From all bytes `bit_set_from_bytes` makes a set of the same members. */
size_t bit_set_copy_bytes(const bit_set *set, size_t from, uint8_t *bytes, size_t room) BIT_SET_CALL;

/* The same bytes with bit n % 8 counted from the lowest, as `bit_set_from_bytes_lsb` reads them. */
size_t bit_set_copy_bytes_lsb(const bit_set *set, size_t from, uint8_t *bytes, size_t room) BIT_SET_CALL;

/* Copies the blocks from block `from` on, at most `room` of them. Returns how many; later values are unchanged.
 * Number n is a member if bit n % 64, counted from the lowest, of block n / 64 is 1; none is past the last block. */
size_t bit_set_copy_blocks(const bit_set *set, size_t from, bit_set_block *blocks, size_t room) BIT_SET_CALL;

/* Replaces the blocks from block `from` on by these: their bits, as above, say which of their numbers are members, and
 * other numbers stay as they were. The length becomes at least that of `from + count` blocks, unless `count` is 0. Also
 * false if that is above SIZE_MAX. */
bool bit_set_put_blocks(bit_set *set, size_t from, const bit_set_block *blocks, size_t count) BIT_SET_MAY_FAIL;

/* ---- Blocks in place. Constant time. */

/* Blocks that a set lends: where the first is, which is never NULL, and how many there are. */
typedef struct bit_set_lent {
    const bit_set_block *blocks;
    size_t count;
} bit_set_lent;

#ifdef __cplusplus
#define BIT_SET_NOTHING_LENT {reinterpret_cast<const bit_set_block *>(sizeof(bit_set_block)), 0}
#else
#define BIT_SET_NOTHING_LENT {(const bit_set_block *)sizeof(bit_set_block), 0}
#endif

/* Lends all blocks, which have the bits that `bit_set_copy_blocks` copies. They may be read, even while other calls read
 * the set, until a call is given the set as a `bit_set *`. */
void bit_set_lend_blocks(const bit_set *set, bit_set_lent *lent) BIT_SET_CALL;

/* ---- Reading a set. Constant time, except for the count and the hash, which read the nonzero blocks, and whether it is
 * empty, which uses the summary. */

size_t bit_set_count(const bit_set *set) BIT_SET_CALL;
bool bit_set_is_empty(const bit_set *set) BIT_SET_CALL;
size_t bit_set_length(const bit_set *set) BIT_SET_CALL;
size_t bit_set_capacity(const bit_set *set) BIT_SET_CALL;

/* A hash of only the members: equal sets have the same. It has no secret key: whoever chooses the members can make hashes
 * collide. */
uint64_t bit_set_hash(const bit_set *set) BIT_SET_CALL;

/* ---- Two sets, which are read. In each of these both may be the same set. At most one pass over both. */

/* Whether each member is in the other set, and the other way round. */
bool bit_set_is_subset(const bit_set *set, const bit_set *other) BIT_SET_CALL;
bool bit_set_is_superset(const bit_set *set, const bit_set *other) BIT_SET_CALL;

/* Whether each member is in the other set, which has at least one more. */
bool bit_set_is_proper_subset(const bit_set *set, const bit_set *other) BIT_SET_CALL;

/* Whether no member is in the other set. */
bool bit_set_is_disjoint(const bit_set *set, const bit_set *other) BIT_SET_CALL;

/* Whether the members in the range are the same, which is true of an empty range. One step for each of them up to the first
 * that differs; finding the next one uses the summaries. */
bool bit_set_same_in_range(const bit_set *set, const bit_set *other, size_t start, size_t end) BIT_SET_CALL;

/* Whether the members are the same. Lengths and capacities do not matter. */
bool bit_set_equals(const bit_set *set, const bit_set *other) BIT_SET_CALL;

/* -1, 0 or 1, as the ascending lists of members compare by their first difference. */
int32_t bit_set_compare(const bit_set *set, const bit_set *other) BIT_SET_CALL;

/* How many numbers are in either set, in both, only in the first, or in exactly one of the two. These calls make no set.
 * They skip zero blocks by the summaries. */
size_t bit_set_union_count(const bit_set *set, const bit_set *other) BIT_SET_CALL;
size_t bit_set_intersection_count(const bit_set *set, const bit_set *other) BIT_SET_CALL;
size_t bit_set_difference_count(const bit_set *set, const bit_set *other) BIT_SET_CALL;
size_t bit_set_symmetric_difference_count(const bit_set *set, const bit_set *other) BIT_SET_CALL;

/* Copy the blocks of a merge of two sets, as `bit_set_copy_blocks` copies those of one set, from block `from` on: of what
 * is in either, in both, only in the first, or in exactly one of the two. There are as many blocks as the longer set has. */
size_t bit_set_copy_union(const bit_set *set, const bit_set *other, size_t from, bit_set_block *blocks, size_t room)
    BIT_SET_CALL;
size_t bit_set_copy_intersection(const bit_set *set, const bit_set *other, size_t from, bit_set_block *blocks, size_t room)
    BIT_SET_CALL;
size_t bit_set_copy_difference(const bit_set *set, const bit_set *other, size_t from, bit_set_block *blocks, size_t room)
    BIT_SET_CALL;
size_t bit_set_copy_symmetric_difference(const bit_set *set, const bit_set *other, size_t from, bit_set_block *blocks,
                                         size_t room) BIT_SET_CALL;

/* ---- In place. In none of these may `set` be another set of the call. The length becomes the greater of those of `set`
 * and `other`. None of these fails if the length of `other` is at most the capacity of `set`. One pass over both. */

bool bit_set_union_with(bit_set *set, const bit_set *other) BIT_SET_MAY_FAIL;
bool bit_set_intersect_with(bit_set *set, const bit_set *other) BIT_SET_MAY_FAIL;
bool bit_set_difference_with(bit_set *set, const bit_set *other) BIT_SET_MAY_FAIL;
bool bit_set_symmetric_difference_with(bit_set *set, const bit_set *other) BIT_SET_MAY_FAIL;

/* The same four, which return BIT_SET_YES if the members of `set` changed, BIT_SET_NO if not, or BIT_SET_NO_MEMORY.
 * They write no block before the first that changes. */
int32_t bit_set_union_changes(bit_set *set, const bit_set *other) BIT_SET_MAY_FAIL;
int32_t bit_set_intersection_changes(bit_set *set, const bit_set *other) BIT_SET_MAY_FAIL;
int32_t bit_set_difference_changes(bit_set *set, const bit_set *other) BIT_SET_MAY_FAIL;
int32_t bit_set_symmetric_difference_changes(bit_set *set, const bit_set *other) BIT_SET_MAY_FAIL;

/* Inserts the members of `other` that are not in `except`, and returns the same. `other` and `except` may be one set. */
int32_t bit_set_union_with_difference(bit_set *set, const bit_set *other, const bit_set *except) BIT_SET_MAY_FAIL;

/* Inserts what `other` and `also` have in common, and returns the same. `other` and `also` may be one set. */
int32_t bit_set_union_with_intersection(bit_set *set, const bit_set *other, const bit_set *also) BIT_SET_MAY_FAIL;

/* Sets the members to those of `other` that are not in `except`, and returns the same. `other` and `except` may be one
 * set. */
int32_t bit_set_become_difference(bit_set *set, const bit_set *other, const bit_set *except) BIT_SET_MAY_FAIL;

/* Moves the members of `other` into `set`; `other` becomes empty, and keeps its length. */
bool bit_set_append(bit_set *set, bit_set *other) BIT_SET_MAY_FAIL;

/* `set` becomes equal to `other`, with its length. */
bool bit_set_copy(bit_set *set, const bit_set *other) BIT_SET_MAY_FAIL;

/* ---- A whole set. Of these only `bit_set_shift_up` allocates. The first and the third write at most one block, and the
 * others every block. */

/* Keeps the members below `length`, and shortens the length to it. */
void bit_set_truncate(bit_set *set, size_t length) BIT_SET_CALL;

/* Removes every member; the length stays. */
void bit_set_make_empty(bit_set *set) BIT_SET_CALL;

/* Removes every member and sets the length to 0; the capacity stays. */
void bit_set_reset(bit_set *set) BIT_SET_CALL;

/* Moves each member up: n becomes n + distance. The length becomes at least one more than the greatest. BIT_SET_YES, or
 * BIT_SET_NO_MEMORY, or BIT_SET_NO_ELEMENT if a member would become SIZE_MAX or more. */
int32_t bit_set_shift_up(bit_set *set, size_t distance) BIT_SET_MAY_FAIL;

/* Moves each member down: n becomes n - distance, and those below the distance are removed. The length stays. */
void bit_set_shift_down(bit_set *set, size_t distance) BIT_SET_CALL;

/* ---- Capacity. The members stay, and so does the length, except in `bit_set_shrink_to_fit`. The blocks may move. */

/* Makes the capacity at least `length`. */
bool bit_set_reserve(bit_set *set, size_t length) BIT_SET_MAY_FAIL;

/* The same, with no more than that needs in whole blocks. */
bool bit_set_reserve_exact(bit_set *set, size_t length) BIT_SET_MAY_FAIL;

/* Sets the length to the end of the last nonempty block, and gives back the capacity past it. False if some of it stayed
 * because memory ran out; the length has changed then too. */
bool bit_set_shrink_to_fit(bit_set *set) BIT_SET_CALL;

/* ---- Roaring bitmaps, of bit_roaring.h. Both go through the ranges of 65,536 numbers that have members: up to 4,096 of
 * them one by one, and more as blocks. */

struct bit_roaring;

/* The set of the members of a Roaring bitmap. Its length is one more than the greatest, or 0. */
bool bit_set_from_roaring(bit_set **out, const struct bit_roaring *bitmap) BIT_SET_MAY_FAIL;

/* The Roaring bitmap of the members, which must be freed by `bit_roaring_free`. BIT_SET_YES, BIT_SET_NO_MEMORY, or
 * BIT_SET_NO_ELEMENT if a member is above UINT32_MAX. No container is stored as runs. */
int32_t bit_set_to_roaring(struct bit_roaring **out, const bit_set *set) BIT_SET_MAY_FAIL;

/* ---- Matrices: rows of columns, each row a set, all in one piece of memory. The numbers of rows and columns are
 * fixed. The caller must keep each row and column that a call is given below them. If BIT_SET_CHECKED is defined before
 * this header, a call that is given another ends the process with a message.
 *
 * Only the calls that make a matrix or a set allocate. Those with a row take constant time, or make one pass over the
 * blocks of the row, or of the two rows. */

typedef struct bit_matrix bit_matrix;

/* ---- Making and freeing matrices. They also return false if a matrix would have more bits than SIZE_MAX, with each row in
 * whole blocks. */

/* A matrix of this many empty rows. Writes each block once. */
bool bit_matrix_new(bit_matrix **out, size_t rows, size_t columns) BIT_SET_MAY_FAIL;

/* A matrix of this many rows, each with the members of the set; there are as many columns as the set's length. Writes each
 * block twice. */
bool bit_matrix_from_set(bit_matrix **out, const bit_set *set, size_t rows) BIT_SET_MAY_FAIL;

/* A matrix with the same rows. Copies each block. */
bool bit_matrix_clone(bit_matrix **out, const bit_matrix *matrix) BIT_SET_MAY_FAIL;

/* The matrix that has a row for each column, with the rows that have that column. Transposes squares of blocks, or, if fewer
 * than one bit in 64 is set, moves the set bits one by one. */
bool bit_matrix_transpose(bit_matrix **out, const bit_matrix *matrix) BIT_SET_MAY_FAIL;

/* The set of the columns of the row. Its length is the number of columns. */
bool bit_matrix_row_to_set(bit_set **out, const bit_matrix *matrix, size_t row) BIT_SET_MAY_FAIL;

/* Gives the memory back. Does nothing for NULL. */
void bit_matrix_free(bit_matrix *matrix);

/* ---- Rows and columns. Constant time, except for the counts, and for the next column, which skips zero blocks. */

size_t bit_matrix_rows(const bit_matrix *matrix) BIT_SET_CALL;
size_t bit_matrix_columns(const bit_matrix *matrix) BIT_SET_CALL;

/* Whether the column is in the row. */
bool bit_matrix_contains(const bit_matrix *matrix, size_t row, size_t column) BIT_SET_CALL;

/* Insert the column or remove it. Each returns whether that changed the row. */
bool bit_matrix_insert(bit_matrix *matrix, size_t row, size_t column) BIT_SET_CALL;
bool bit_matrix_remove(bit_matrix *matrix, size_t row, size_t column) BIT_SET_CALL;

/* How many columns are in the row, and how many are in all rows together. */
size_t bit_matrix_count(const bit_matrix *matrix, size_t row) BIT_SET_CALL;
size_t bit_matrix_count_all(const bit_matrix *matrix) BIT_SET_CALL;

/* The least column of the row that is `from` or above, or BIT_SET_NONE if there is none. */
size_t bit_matrix_next(const bit_matrix *matrix, size_t row, size_t from) BIT_SET_CALL;

/* A loop over the columns of a row, like BIT_SET_FOR_EACH over the members of a set. */
#define BIT_MATRIX_FOR_EACH(column, matrix, row)                                                                       \
    for (size_t column = bit_matrix_next(matrix, row, 0); column != BIT_SET_NONE;                                      \
         column = bit_matrix_next(matrix, row, column + 1))

/* ---- Whole rows. `row`, `read` and `write` may be the same row. */

/* Copies the columns of the row at or above `from`, as `bit_set_copy_members` does for a set. */
size_t bit_matrix_copy_members(const bit_matrix *matrix, size_t row, size_t from, size_t *columns, size_t room)
    BIT_SET_CALL;

/* Copies the blocks of the row from block `from` on, as `bit_set_copy_blocks` does those of a set. One step for each block,
 * and one for each column that is present. */
size_t bit_matrix_copy_blocks(const bit_matrix *matrix, size_t row, size_t from, bit_set_block *blocks, size_t room)
    BIT_SET_CALL;

/* Whether each column of the row is in the other row, and whether they have none in common. */
bool bit_matrix_is_subset_row(const bit_matrix *matrix, size_t row, size_t other) BIT_SET_CALL;
bool bit_matrix_is_disjoint_row(const bit_matrix *matrix, size_t row, size_t other) BIT_SET_CALL;

/* Whether the columns of the row are the members of the set. One step for each of them up to the first that differs. */
bool bit_matrix_row_equals(const bit_matrix *matrix, size_t row, const bit_set *set) BIT_SET_CALL;

/* Set the row `write` to the columns in it or in the row `read`, in both, or only in it. Each returns whether that changed
 * it. */
bool bit_matrix_union_rows(bit_matrix *matrix, size_t read, size_t write) BIT_SET_CALL;
bool bit_matrix_intersect_rows(bit_matrix *matrix, size_t read, size_t write) BIT_SET_CALL;
bool bit_matrix_difference_rows(bit_matrix *matrix, size_t read, size_t write) BIT_SET_CALL;

/* Inserts the members of the set into the row; each must be below the number of columns. Returns whether that changed
 * the row. */
bool bit_matrix_union_row_with(bit_matrix *matrix, const bit_set *set, size_t row) BIT_SET_CALL;

/* Inserts the columns that are at least `start` and below `end` into the row; each must be below the number of columns.
 * There are none if `end` is `start` or below. Writes the blocks of the range. */
void bit_matrix_insert_range(bit_matrix *matrix, size_t row, size_t start, size_t end) BIT_SET_CALL;

/* Insert every column, or remove every column. */
void bit_matrix_fill_row(bit_matrix *matrix, size_t row) BIT_SET_CALL;
void bit_matrix_clear_row(bit_matrix *matrix, size_t row) BIT_SET_CALL;

/* ---- Whole matrices, and matrices as graphs: from each row an edge leads to each of its columns, and a column that is not
 * a row has no edges of its own. */

/* Whether the numbers of columns and the rows are the same. Both may be the same matrix. */
bool bit_matrix_equals(const bit_matrix *matrix, const bit_matrix *other) BIT_SET_CALL;

/* Set each row to everything to which a path leads from it: of at least one edge, or of any number of edges, including none.
 * Unites no row with another more than once. */
void bit_matrix_transitive_closure(bit_matrix *matrix) BIT_SET_CALL;
void bit_matrix_reflexive_transitive_closure(bit_matrix *matrix) BIT_SET_CALL;

/* The dominators of each row: row v of the new matrix, which has equally many rows and columns, has d if every path from
 * `entry` to v goes through d. So the row of v has v and `entry`, and every d if no path leads to v, as from an `entry`
 * that is not a row. Goes over all edges until nothing changes, with one pass over two rows for each edge. */
bool bit_matrix_dominators(bit_matrix **out, const bit_matrix *graph, size_t entry) BIT_SET_MAY_FAIL;

/* ---- The calls that require two different sets, or a row or a column in bounds, if BIT_SET_CHECKED is defined: each checks
 * first. */

#ifdef BIT_SET_CHECKED

#include <stdio.h>
#include <stdlib.h>

static inline void bit_set_stop_at_one(const bit_set *set, const bit_set *other, const char *call) {
    if (set == other) {
        fprintf(stderr, "bit_set_%s: the call was given one set where it owes two\n", call);
        abort();
    }
}

#define BIT_SET_CHECK(result, call, second)                                                                            \
    static inline result bit_set_checked_##call(bit_set *set, second *other) {                                         \
        bit_set_stop_at_one(set, other, #call);                                                                        \
        return bit_set_##call(set, other);                                                                             \
    }

BIT_SET_CHECK(bool, union_with, const bit_set)
BIT_SET_CHECK(bool, intersect_with, const bit_set)
BIT_SET_CHECK(bool, difference_with, const bit_set)
BIT_SET_CHECK(bool, symmetric_difference_with, const bit_set)
BIT_SET_CHECK(int32_t, union_changes, const bit_set)
BIT_SET_CHECK(int32_t, intersection_changes, const bit_set)
BIT_SET_CHECK(int32_t, difference_changes, const bit_set)
BIT_SET_CHECK(int32_t, symmetric_difference_changes, const bit_set)
BIT_SET_CHECK(bool, append, bit_set)
BIT_SET_CHECK(bool, copy, const bit_set)

#define BIT_SET_CHECK_THREE(call)                                                                                      \
    static inline int32_t bit_set_checked_##call(bit_set *set, const bit_set *other, const bit_set *third) {           \
        bit_set_stop_at_one(set, other, #call);                                                                        \
        bit_set_stop_at_one(set, third, #call);                                                                        \
        return bit_set_##call(set, other, third);                                                                      \
    }

BIT_SET_CHECK_THREE(union_with_difference)
BIT_SET_CHECK_THREE(union_with_intersection)
BIT_SET_CHECK_THREE(become_difference)

#undef BIT_SET_CHECK
#undef BIT_SET_CHECK_THREE
#define bit_set_union_with bit_set_checked_union_with
#define bit_set_intersect_with bit_set_checked_intersect_with
#define bit_set_difference_with bit_set_checked_difference_with
#define bit_set_symmetric_difference_with bit_set_checked_symmetric_difference_with
#define bit_set_union_changes bit_set_checked_union_changes
#define bit_set_intersection_changes bit_set_checked_intersection_changes
#define bit_set_difference_changes bit_set_checked_difference_changes
#define bit_set_symmetric_difference_changes bit_set_checked_symmetric_difference_changes
#define bit_set_union_with_difference bit_set_checked_union_with_difference
#define bit_set_union_with_intersection bit_set_checked_union_with_intersection
#define bit_set_become_difference bit_set_checked_become_difference
#define bit_set_append bit_set_checked_append
#define bit_set_copy bit_set_checked_copy

static inline void bit_matrix_stop_past(size_t number, size_t count, const char *what, const char *call) {
    if (number >= count) {
        fprintf(stderr, "bit_matrix_%s: there is no %s %zu\n", call, what, number);
        abort();
    }
}

static inline void bit_matrix_stop_past_row(const bit_matrix *matrix, size_t row, const char *call) {
    bit_matrix_stop_past(row, bit_matrix_rows(matrix), "row", call);
}

#define BIT_MATRIX_CHECK_ROW(call)                                                                                     \
    static inline void bit_matrix_checked_##call(bit_matrix *matrix, size_t row) {                                     \
        bit_matrix_stop_past_row(matrix, row, #call);                                                                  \
        bit_matrix_##call(matrix, row);                                                                                \
    }

#define BIT_MATRIX_CHECK_ROWS(call, matrix_type)                                                                       \
    static inline bool bit_matrix_checked_##call(matrix_type *matrix, size_t read, size_t write) {                     \
        bit_matrix_stop_past_row(matrix, read, #call);                                                                 \
        bit_matrix_stop_past_row(matrix, write, #call);                                                                \
        return bit_matrix_##call(matrix, read, write);                                                                 \
    }

#define BIT_MATRIX_CHECK_COLUMN(call, matrix_type)                                                                     \
    static inline bool bit_matrix_checked_##call(matrix_type *matrix, size_t row, size_t column) {                     \
        bit_matrix_stop_past_row(matrix, row, #call);                                                                  \
        bit_matrix_stop_past(column, bit_matrix_columns(matrix), "column", #call);                                     \
        return bit_matrix_##call(matrix, row, column);                                                                 \
    }

BIT_MATRIX_CHECK_ROW(fill_row)
BIT_MATRIX_CHECK_ROW(clear_row)
BIT_MATRIX_CHECK_ROWS(is_subset_row, const bit_matrix)
BIT_MATRIX_CHECK_ROWS(is_disjoint_row, const bit_matrix)
BIT_MATRIX_CHECK_ROWS(union_rows, bit_matrix)
BIT_MATRIX_CHECK_ROWS(intersect_rows, bit_matrix)
BIT_MATRIX_CHECK_ROWS(difference_rows, bit_matrix)
BIT_MATRIX_CHECK_COLUMN(contains, const bit_matrix)
BIT_MATRIX_CHECK_COLUMN(insert, bit_matrix)
BIT_MATRIX_CHECK_COLUMN(remove, bit_matrix)

static inline bool bit_matrix_checked_row_to_set(bit_set **out, const bit_matrix *matrix, size_t row) {
    bit_matrix_stop_past_row(matrix, row, "row_to_set");
    return bit_matrix_row_to_set(out, matrix, row);
}

static inline bool bit_matrix_checked_row_equals(const bit_matrix *matrix, size_t row, const bit_set *set) {
    bit_matrix_stop_past_row(matrix, row, "row_equals");
    return bit_matrix_row_equals(matrix, row, set);
}

static inline size_t bit_matrix_checked_count(const bit_matrix *matrix, size_t row) {
    bit_matrix_stop_past_row(matrix, row, "count");
    return bit_matrix_count(matrix, row);
}

static inline size_t bit_matrix_checked_next(const bit_matrix *matrix, size_t row, size_t from) {
    bit_matrix_stop_past_row(matrix, row, "next");
    return bit_matrix_next(matrix, row, from);
}

static inline size_t bit_matrix_checked_copy_members(const bit_matrix *matrix, size_t row, size_t from, size_t *columns,
                                                     size_t room) {
    bit_matrix_stop_past_row(matrix, row, "copy_members");
    return bit_matrix_copy_members(matrix, row, from, columns, room);
}

static inline size_t bit_matrix_checked_copy_blocks(const bit_matrix *matrix, size_t row, size_t from,
                                                    bit_set_block *blocks, size_t room) {
    bit_matrix_stop_past_row(matrix, row, "copy_blocks");
    return bit_matrix_copy_blocks(matrix, row, from, blocks, room);
}

static inline bool bit_matrix_checked_union_row_with(bit_matrix *matrix, const bit_set *set, size_t row) {
    size_t last = bit_set_last(set);
    bit_matrix_stop_past_row(matrix, row, "union_row_with");
    if (last != BIT_SET_NONE)
        bit_matrix_stop_past(last, bit_matrix_columns(matrix), "column", "union_row_with");
    return bit_matrix_union_row_with(matrix, set, row);
}

static inline void bit_matrix_checked_insert_range(bit_matrix *matrix, size_t row, size_t start, size_t end) {
    bit_matrix_stop_past_row(matrix, row, "insert_range");
    if (start < end)
        bit_matrix_stop_past(end - 1, bit_matrix_columns(matrix), "column", "insert_range");
    bit_matrix_insert_range(matrix, row, start, end);
}

#undef BIT_MATRIX_CHECK_ROW
#undef BIT_MATRIX_CHECK_ROWS
#undef BIT_MATRIX_CHECK_COLUMN
#define bit_matrix_count bit_matrix_checked_count
#define bit_matrix_fill_row bit_matrix_checked_fill_row
#define bit_matrix_clear_row bit_matrix_checked_clear_row
#define bit_matrix_is_subset_row bit_matrix_checked_is_subset_row
#define bit_matrix_is_disjoint_row bit_matrix_checked_is_disjoint_row
#define bit_matrix_union_rows bit_matrix_checked_union_rows
#define bit_matrix_intersect_rows bit_matrix_checked_intersect_rows
#define bit_matrix_difference_rows bit_matrix_checked_difference_rows
#define bit_matrix_contains bit_matrix_checked_contains
#define bit_matrix_insert bit_matrix_checked_insert
#define bit_matrix_remove bit_matrix_checked_remove
#define bit_matrix_row_to_set bit_matrix_checked_row_to_set
#define bit_matrix_row_equals bit_matrix_checked_row_equals
#define bit_matrix_next bit_matrix_checked_next
#define bit_matrix_copy_members bit_matrix_checked_copy_members
#define bit_matrix_copy_blocks bit_matrix_checked_copy_blocks
#define bit_matrix_union_row_with bit_matrix_checked_union_row_with
#define bit_matrix_insert_range bit_matrix_checked_insert_range

#endif

#ifdef __cplusplus
}
#endif

#endif
