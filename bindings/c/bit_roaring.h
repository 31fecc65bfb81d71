/* Sets of 32-bit numbers that stay small if their members are few and far apart. README.md of crates/bit_roaring_c says what
 * is proved, and how to link it. The numbers with the same upper 16 bits are in one container: a list, blocks of bits, or
 * runs. The bytes that `bit_roaring_serialize` writes are those of the portable form that other Roaring bitmaps read and
 * write. bit_set.h has the calls that make a set of bits of such a set, and the other way round: bit_set_from_roaring and
 * bit_set_to_roaring.
 *
 *   Making and freeing      new, from_members, clone, union, intersection, difference, symmetric_difference, flipped,
 *                           add_offset, free
 *   Single numbers          insert, insert_members, push, append_members, remove, remove_members, contains
 *   Ends and searches       min, max, next, previous, next_missing, first_gap, rank, select; BIT_ROARING_FOR_EACH
 *   Ranges                  insert_range, remove_range, flip, contains_range, intersects_range, range_cardinality
 *   Copies                  copy_members, copy_members_back
 *   Reading a set           len, is_empty, hash, statistics
 *   Two sets, read          is_subset, is_proper_subset, is_superset, is_disjoint, equals, compare, union_len,
 *                           intersection_len, difference_len, symmetric_difference_len
 *   Two sets, in place      union_with, intersect_with, difference_with, symmetric_difference_with
 *   A whole set             clear, optimize, remove_runs, shrink_to_fit
 *   Bytes                   serialized_size, serialize, deserialize
 *
 * Sets of 64-bit numbers are of the type `bit_roaring64`, and their calls begin with bit_roaring64_:
 *
 *   Making and freeing      new, from_members, clone, union, intersection, difference, symmetric_difference, flipped, free
 *   Single numbers          insert, insert_members, push, remove, remove_members, contains
 *   Ends and searches       min, max, next, previous, rank, select; BIT_ROARING64_FOR_EACH
 *   Ranges                  insert_range, remove_range, flip, contains_range, range_cardinality
 *   Copies                  copy_members, copy_members_back
 *   Reading a set           len, is_empty, hash
 *   Two sets, read          is_subset, is_proper_subset, is_superset, is_disjoint, equals, compare, union_len,
 *                           intersection_len, difference_len, symmetric_difference_len
 *   Two sets, in place      union_with, intersect_with, difference_with, symmetric_difference_with
 *   A whole set             clear, optimize, remove_runs, shrink_to_fit
 *   Bytes                   serialized_size, serialize, deserialize
 *
 * What the caller must ensure, in Rust's terms:
 *
 *   bit_roaring *          a Box if it is given to `bit_roaring_free`, and otherwise a &mut: it comes from a call that made
 *                          it, is not freed yet, and no other call uses the same set during the call.
 *   const bit_roaring *    a &: the same, but other calls may read the set meanwhile, also in other threads. Nothing is
 *                          written to the set.
 *   bit_roaring **         a place that holds NULL. A call that makes a set stores it there, and it must be freed once; a
 *                          call that fails leaves NULL.
 *   T *, size_t            this many values one after another, none of them part of a set, which only this call writes, or
 *                          with `const` no call. The pointer is never NULL, even if there are no values.
 *   another pointer        a place that holds a value, or with `bit_roaring_kinds *` three, which only this call writes.
 *
 * The same holds of `bit_roaring64`.
 *
 * So the sets of a call must differ if one of them is not `const`; if both are `const`, they may be the same set. Each
 * group of calls below says which it is. If BIT_ROARING_CHECKED is defined before this header, a call that is given the
 * same set where two are required ends the process with a message. NULL for a set, or for a place where one is stored, is
 * an error of the caller in every call except `bit_roaring_free`, which then does nothing.
 *
 * A call may allocate by malloc and realloc, which together with free must be one allocator. No call may be made from a
 * signal handler, or in a forked child of a process with threads.
 *
 * No call ends the process. `false` and BIT_ROARING_NO_MEMORY mean that memory ran out, and that nothing changed unless
 * stated otherwise below. A call that is said to fail only in some case does not fail for memory in any other, whatever
 * memory there is; one of a group that does not allocate never does.
 *
 * A search by key for a container tries those near the key's place by proportion, and then a binary search of all: it is
 * logarithmic in the number of containers.
 */
#ifndef BIT_ROARING_H
#define BIT_ROARING_H

#include "bit_set.h"

#ifdef __cplusplus
extern "C" {
#endif

/* A set of numbers below 2^32. */
typedef struct bit_roaring bit_roaring;

/* The results of calls that return an `int32_t`: a number below 0 if they failed. */
enum bit_roaring_answer {
    BIT_ROARING_BAD_RUNS = -11,        /* runs do not ascend, touch or overlap, or one extends past 65,535 */
    BIT_ROARING_BAD_ORDER = -10,       /* the numbers of a list do not ascend */
    BIT_ROARING_BAD_CARDINALITY = -9,  /* the number of members of a container differs from its stated count */
    BIT_ROARING_BAD_OFFSET = -8,       /* a container is not at the place that the bytes state */
    BIT_ROARING_BAD_KEYS = -7,         /* a key is not above the one before it */
    BIT_ROARING_BAD_COUNT = -6,        /* there are more containers than keys */
    BIT_ROARING_BAD_COOKIE = -5,       /* the first four bytes are not those of the form */
    BIT_ROARING_SHORT = -4,            /* a part extends past the end of the bytes */
    BIT_ROARING_NOT_SORTED = -3,       /* a number is not above each member */
    BIT_ROARING_NO_MEMORY = -1,
    BIT_ROARING_NO = 0,
    BIT_ROARING_YES = 1
};

/* The result of calls that search for a member if there is none: no set has this number. */
#define BIT_ROARING_NONE UINT64_MAX

/* ---- Making and freeing. */

/* An empty set. It has no containers. */
bool bit_roaring_new(bit_roaring **out) BIT_SET_MAY_FAIL;

/* The set of these numbers, which may be in any order. One insertion for each. */
bool bit_roaring_from_members(bit_roaring **out, const uint32_t *members, size_t count) BIT_SET_MAY_FAIL;

/* A set with the same members, in containers of the same form. Copies each container once. */
bool bit_roaring_clone(bit_roaring **out, const bit_roaring *set) BIT_SET_MAY_FAIL;

/* The set of what is in either set, in both, only in the first, or in exactly one of the two. Both may be the same set. One
 * pass over the keys of both, and over the members of the containers. */
bool bit_roaring_union(bit_roaring **out, const bit_roaring *set, const bit_roaring *other) BIT_SET_MAY_FAIL;
bool bit_roaring_intersection(bit_roaring **out, const bit_roaring *set, const bit_roaring *other) BIT_SET_MAY_FAIL;
bool bit_roaring_difference(bit_roaring **out, const bit_roaring *set, const bit_roaring *other) BIT_SET_MAY_FAIL;
bool bit_roaring_symmetric_difference(bit_roaring **out, const bit_roaring *set, const bit_roaring *other)
    BIT_SET_MAY_FAIL;

/* Gives the memory back. Does nothing for NULL. */
void bit_roaring_free(bit_roaring *set);

/* ---- Single numbers. Each takes a search by key for the container and a binary search in it. If that changes the set, the
 * members above the number move in its container, or the containers above it if it is the first in its own. */

/* Inserts a number. BIT_ROARING_YES if it is new, BIT_ROARING_NO if it was present, or BIT_ROARING_NO_MEMORY. Fails only if
 * it is new. */
int32_t bit_roaring_insert(bit_roaring *set, uint32_t value) BIT_SET_MAY_FAIL;

/* Inserts numbers, one by one, up to the first that is new and for which memory runs out. Returns how many were inserted:
 * `count` if all were. */
size_t bit_roaring_insert_members(bit_roaring *set, const uint32_t *members, size_t count) BIT_SET_MAY_FAIL;

/* Inserts a number if it is above each member. BIT_ROARING_YES if it is, BIT_ROARING_NO if not, or BIT_ROARING_NO_MEMORY.
 * Fails only if it is. */
int32_t bit_roaring_push(bit_roaring *set, uint32_t value) BIT_SET_MAY_FAIL;

/* Inserts numbers, each of which must be above each member before it, up to the first that is not or for which memory runs
 * out. `*appended` is how many were inserted, even then. BIT_ROARING_YES if all were, BIT_ROARING_NOT_SORTED, or
 * BIT_ROARING_NO_MEMORY. */
int32_t bit_roaring_append_members(bit_roaring *set, const uint32_t *members, size_t count, size_t *appended)
    BIT_SET_MAY_FAIL;

/* Removes a number. BIT_ROARING_YES if it was present, BIT_ROARING_NO if not, or BIT_ROARING_NO_MEMORY: a container that
 * falls to 4,096 members becomes a list, and runs are made anew, as a list or blocks if these have fewer bytes. Fails only
 * if the number is present. */
int32_t bit_roaring_remove(bit_roaring *set, uint32_t value) BIT_SET_MAY_FAIL;

/* Removes numbers, in any order. Returns how many were present, or BIT_ROARING_NO_MEMORY: those before the one for which
 * memory ran out, which is present, are removed then. */
int64_t bit_roaring_remove_members(bit_roaring *set, const uint32_t *members, size_t count) BIT_SET_MAY_FAIL;

/* Whether the number is a member. */
bool bit_roaring_contains(const bit_roaring *set, uint32_t value) BIT_SET_CALL;

/* ---- Ends and searches. BIT_ROARING_NONE stands for no member. None of these allocates. Any number may be given. */

/* The least and the greatest member, or BIT_ROARING_NONE if the set is empty. Read the first or the last container up to
 * it. */
uint64_t bit_roaring_min(const bit_roaring *set) BIT_SET_CALL;
uint64_t bit_roaring_max(const bit_roaring *set) BIT_SET_CALL;

/* The least member that is `from` or above, and the greatest below `end`, or BIT_ROARING_NONE if there is none. Two searches
 * by key, and one in each container. To iterate over many members, `bit_roaring_copy_members` is faster. */
uint64_t bit_roaring_next(const bit_roaring *set, uint64_t from) BIT_SET_CALL;
uint64_t bit_roaring_previous(const bit_roaring *set, uint64_t end) BIT_SET_CALL;

/* The least number below 2^32 that is `from` or above and no member, or BIT_ROARING_NONE if there is none. Goes from run to
 * run of members. */
uint64_t bit_roaring_next_missing(const bit_roaring *set, uint32_t from) BIT_SET_CALL;

/* The least number that is `from` or above and begins `count` numbers below 2^32 in a row that are no members, or
 * BIT_ROARING_NONE if there is none. Goes from gap to gap. */
uint64_t bit_roaring_first_gap(const bit_roaring *set, uint32_t from, uint64_t count) BIT_SET_CALL;

/* How many members are at most `value`. A search by key and one in the container; adds up the counts of the containers
 * before it. */
uint64_t bit_roaring_rank(const bit_roaring *set, uint32_t value) BIT_SET_CALL;

/* The member with exactly `n` others below it, or BIT_ROARING_NONE if there are no more than `n`. Skips containers by their
 * counts. */
uint64_t bit_roaring_select(const bit_roaring *set, uint32_t n) BIT_SET_CALL;

/* A loop over the members in ascending order, which declares the name `member`, a uint64_t. The set may be changed in it:
 * the loop continues at the next member of the changed set. */
#define BIT_ROARING_FOR_EACH(member, set)                                                                              \
    for (uint64_t member = bit_roaring_min(set); member != BIT_ROARING_NONE; member = bit_roaring_next(set, member + 1))

/* ---- Ranges: the numbers that are at least `start` and below `end`, and none if `end` is `start` or below. Each takes two
 * searches by key, and reads the containers of the first and of the last number, and the counts of those between. */

/* Inserts each number of the range that is below 2^32; each container between becomes one run. Returns how many are new, or
 * BIT_ROARING_NO_MEMORY. Fails only if a number is new. */
int64_t bit_roaring_insert_range(bit_roaring *set, uint64_t start, uint64_t end) BIT_SET_MAY_FAIL;

/* Removes each number of the range. Returns how many were present, or BIT_ROARING_NO_MEMORY. Fails only if a number is
 * present. */
int64_t bit_roaring_remove_range(bit_roaring *set, uint64_t start, uint64_t end) BIT_SET_MAY_FAIL;

/* Removes each member in the range, and inserts each other number of it that is below 2^32. Returns whether it could: if
 * memory runs out, nothing changes. Fails only if the range has a number below 2^32. Makes the containers of the range
 * anew. `flipped` makes a new set instead, and may always fail. */
bool bit_roaring_flip(bit_roaring *set, uint64_t start, uint64_t end) BIT_SET_MAY_FAIL;
bool bit_roaring_flipped(bit_roaring **out, const bit_roaring *set, uint64_t start, uint64_t end) BIT_SET_MAY_FAIL;

/* Makes a set that has each member plus `offset`, but for those that would leave 0 to 2^32 - 1. Goes by runs of members, and
 * inserts each as a range. Returns whether it could: if memory runs out, `out` stays NULL. */
bool bit_roaring_add_offset(bit_roaring **out, const bit_roaring *set, int64_t offset) BIT_SET_MAY_FAIL;

/* Whether every number of the range is a member, which is true of an empty range. */
bool bit_roaring_contains_range(const bit_roaring *set, uint64_t start, uint64_t end) BIT_SET_CALL;

/* Whether any number of the range is a member. */
bool bit_roaring_intersects_range(const bit_roaring *set, uint64_t start, uint64_t end) BIT_SET_CALL;

/* How many numbers of the range are members. */
uint64_t bit_roaring_range_cardinality(const bit_roaring *set, uint64_t start, uint64_t end) BIT_SET_CALL;

/* ---- Copies. A search by key, and then one step for each value that is copied and for each container and block. */

/* Copies the members at or above `from`, in ascending order, at most `room` of them. Returns how many; later values are
 * unchanged. To continue, pass the last one plus 1, as a uint64_t. */
size_t bit_roaring_copy_members(const bit_roaring *set, uint64_t from, uint32_t *members, size_t room) BIT_SET_CALL;

/* Copies the members below `end`, in descending order, at most `room` of them. Returns how many; later values are
 * unchanged. To continue, pass the last one. With UINT64_MAX it begins at the greatest member. */
size_t bit_roaring_copy_members_back(const bit_roaring *set, uint64_t end, uint32_t *members, size_t room) BIT_SET_CALL;

/* ---- Reading a set. None of these allocates. */

/* How many members there are. Adds up the counts of the containers. */
uint64_t bit_roaring_len(const bit_roaring *set) BIT_SET_CALL;

/* Whether there is no member. Constant time. */
bool bit_roaring_is_empty(const bit_roaring *set) BIT_SET_CALL;

/* A hash of only the members: equal sets have the same, which is also what `bit_set_hash` returns for these members. It has
 * no secret key: whoever chooses the members can make hashes collide. One step for each member. */
uint64_t bit_roaring_hash(const bit_roaring *set) BIT_SET_CALL;

/* Containers of one kind: how many there are, how many members they have, and how many bytes they take when written, besides
 * their headers and places. */
typedef struct bit_roaring_kind {
    uint32_t containers;
    uint64_t members;
    uint64_t bytes;
} bit_roaring_kind;

/* The containers of a set: lists of up to 4,096 members, blocks of more, and runs. */
typedef struct bit_roaring_kinds {
    bit_roaring_kind lists;
    bit_roaring_kind blocks;
    bit_roaring_kind runs;
} bit_roaring_kinds;

/* Writes how many containers of each kind there are. One pass over the containers, by their counts. */
void bit_roaring_statistics(const bit_roaring *set, bit_roaring_kinds *kinds) BIT_SET_CALL;

/* ---- Two sets, which are read. In each of these both may be the same set. One pass over the keys of both, and over each
 * pair of containers with the same key; if one set has more than 32 times as many containers as the other, or one list as
 * many numbers, the longer one is searched. None of these allocates. */

/* Whether each member is in the other set, and the other way round. */
bool bit_roaring_is_subset(const bit_roaring *set, const bit_roaring *other) BIT_SET_CALL;
bool bit_roaring_is_superset(const bit_roaring *set, const bit_roaring *other) BIT_SET_CALL;

/* Whether each member is in the other set, which has at least one more. */
bool bit_roaring_is_proper_subset(const bit_roaring *set, const bit_roaring *other) BIT_SET_CALL;

/* Whether no member is in the other set. */
bool bit_roaring_is_disjoint(const bit_roaring *set, const bit_roaring *other) BIT_SET_CALL;

/* Whether the members are the same. The forms of the containers do not matter. */
bool bit_roaring_equals(const bit_roaring *set, const bit_roaring *other) BIT_SET_CALL;

/* -1, 0 or 1, as the ascending lists of members compare by their first difference. Compares containers up to the first that
 * differs or has another form, and from there member by member. */
int32_t bit_roaring_compare(const bit_roaring *set, const bit_roaring *other) BIT_SET_CALL;

/* How many numbers are in either set, in both, only in the first, or in exactly one of the two. */
uint64_t bit_roaring_union_len(const bit_roaring *set, const bit_roaring *other) BIT_SET_CALL;
uint64_t bit_roaring_intersection_len(const bit_roaring *set, const bit_roaring *other) BIT_SET_CALL;
uint64_t bit_roaring_difference_len(const bit_roaring *set, const bit_roaring *other) BIT_SET_CALL;
uint64_t bit_roaring_symmetric_difference_len(const bit_roaring *set, const bit_roaring *other) BIT_SET_CALL;

/* ---- In place. In none of these may `set` be the other set of the call. Each sets the members to those that the call of
 * the same name that makes a set has, and returns BIT_ROARING_YES if that changed them, BIT_ROARING_NO if not, or
 * BIT_ROARING_NO_MEMORY. A search by key for each container of `other`, and for `intersect_with` one for each of `set`: what
 * both have is merged, where it is kept if it keeps its form, and what only `other` has is copied. No other container is
 * read; those above the first copy move once.
 *
 * `union_with` fails only if `other` has a member that `set` lacks; `intersect_with` and `difference_with` only if some
 * members of `set` are in `other` and some are not; `symmetric_difference_with` only if `other` has members. */

int32_t bit_roaring_union_with(bit_roaring *set, const bit_roaring *other) BIT_SET_MAY_FAIL;
int32_t bit_roaring_intersect_with(bit_roaring *set, const bit_roaring *other) BIT_SET_MAY_FAIL;
int32_t bit_roaring_difference_with(bit_roaring *set, const bit_roaring *other) BIT_SET_MAY_FAIL;
int32_t bit_roaring_symmetric_difference_with(bit_roaring *set, const bit_roaring *other) BIT_SET_MAY_FAIL;

/* ---- A whole set. */

/* Removes every member, and gives the memory of the containers back. */
void bit_roaring_clear(bit_roaring *set) BIT_SET_CALL;

/* Converts each container to the form with the fewest bytes, preferring runs. BIT_ROARING_YES if one changed,
 * BIT_ROARING_NO if not, or BIT_ROARING_NO_MEMORY. The members stay in any case; if memory runs out, the containers before
 * the failure have their new form. Reads each member once, except those of runs. */
int32_t bit_roaring_optimize(bit_roaring *set) BIT_SET_CALL;

/* Converts each container of runs to a list or blocks, and returns the same. If memory runs out, the containers before the
 * failure are converted. Writes each member of runs once. */
int32_t bit_roaring_remove_runs(bit_roaring *set) BIT_SET_CALL;

/* Gives back the memory that is held and not used. One pass over the containers. */
void bit_roaring_shrink_to_fit(bit_roaring *set) BIT_SET_CALL;

/* ---- Bytes, in the portable form of Roaring bitmaps. */

/* How many bytes `bit_roaring_serialize` writes. Adds up those of the containers. */
size_t bit_roaring_serialized_size(const bit_roaring *set) BIT_SET_CALL;

/* Writes the set to the front of the bytes; later ones are unchanged. BIT_ROARING_YES if it did, BIT_ROARING_NO if `room`
 * is less than `bit_roaring_serialized_size` says, or BIT_ROARING_NO_MEMORY, only if `room` suffices; the bytes are
 * unchanged unless it did. Makes the bytes first, in memory of exactly their number. */
int32_t bit_roaring_serialize(const bit_roaring *set, uint8_t *bytes, size_t room) BIT_SET_MAY_FAIL;

/* The set that the first bytes represent, and in `*used` how many bytes that are: what follows is the caller's. No more than
 * `count` bytes are read, whatever they are. BIT_ROARING_YES, BIT_ROARING_NO_MEMORY, or the first fault of the bytes, from
 * BIT_ROARING_SHORT to BIT_ROARING_BAD_RUNS; `*used` is unchanged if it fails. Reads each byte once. Containers that are
 * written as runs are stored as runs, if they have at most 2,047 of them. */
int32_t bit_roaring_deserialize(bit_roaring **out, const uint8_t *bytes, size_t count, size_t *used) BIT_SET_MAY_FAIL;

/* ---- Sets of 64-bit numbers. The numbers with the same upper 32 bits are in one bitmap, a `bit_roaring` of their lower 32
 * bits. A call on a number finds its bitmap by a binary search among all bitmaps of the set. Each number may be a member, so
 * a call that finds one returns whether there is one, and writes it only then. */

/* A set of numbers below 2^64. */
typedef struct bit_roaring64 bit_roaring64;

/* Further results of `bit_roaring64_deserialize`. */
enum bit_roaring64_answer {
    BIT_ROARING64_EMPTY_BITMAP = -14,  /* a bitmap has no members */
    BIT_ROARING64_BAD_KEYS = -13,      /* a key of a bitmap is not above the one before it */
    BIT_ROARING64_SHORT = -12          /* the number of bitmaps or a key extends past the end of the bytes */
};

/* ---- Making and freeing. */

/* An empty set. It has no bitmaps. */
bool bit_roaring64_new(bit_roaring64 **out) BIT_SET_MAY_FAIL;

/* The set of these numbers, which may be in any order. One insertion for each. */
bool bit_roaring64_from_members(bit_roaring64 **out, const uint64_t *members, size_t count) BIT_SET_MAY_FAIL;

/* A set with the same members, in containers of the same form. Copies each container once. */
bool bit_roaring64_clone(bit_roaring64 **out, const bit_roaring64 *set) BIT_SET_MAY_FAIL;

/* The set of what is in either set, in both, only in the first, or in exactly one of the two. Both may be the same set. One
 * pass over the bitmaps of both: those with the same upper 32 bits are merged as two `bit_roaring` are, and the others are
 * copied or left out. */
bool bit_roaring64_union(bit_roaring64 **out, const bit_roaring64 *set, const bit_roaring64 *other) BIT_SET_MAY_FAIL;
bool bit_roaring64_intersection(bit_roaring64 **out, const bit_roaring64 *set, const bit_roaring64 *other)
    BIT_SET_MAY_FAIL;
bool bit_roaring64_difference(bit_roaring64 **out, const bit_roaring64 *set, const bit_roaring64 *other)
    BIT_SET_MAY_FAIL;
bool bit_roaring64_symmetric_difference(bit_roaring64 **out, const bit_roaring64 *set, const bit_roaring64 *other)
    BIT_SET_MAY_FAIL;

/* Gives the memory back. Does nothing for NULL. */
void bit_roaring64_free(bit_roaring64 *set);

/* ---- Single numbers. Each takes a search for the bitmap, and there what the call of `bit_roaring` takes. If a bitmap is
 * added or becomes empty, those above it move. */

/* Inserts a number. BIT_ROARING_YES if it is new, BIT_ROARING_NO if it was present, or BIT_ROARING_NO_MEMORY. Fails only if
 * it is new. */
int32_t bit_roaring64_insert(bit_roaring64 *set, uint64_t value) BIT_SET_MAY_FAIL;

/* Inserts numbers, one by one, up to the first that is new and for which memory runs out. Returns how many were inserted:
 * `count` if all were. */
size_t bit_roaring64_insert_members(bit_roaring64 *set, const uint64_t *members, size_t count) BIT_SET_MAY_FAIL;

/* Inserts a number if it is above each member, of which it reads the greatest. BIT_ROARING_YES if it is, BIT_ROARING_NO if
 * not, or BIT_ROARING_NO_MEMORY. Fails only if it is. */
int32_t bit_roaring64_push(bit_roaring64 *set, uint64_t value) BIT_SET_MAY_FAIL;

/* Removes a number. BIT_ROARING_YES if it was present, BIT_ROARING_NO if not, or BIT_ROARING_NO_MEMORY, for what
 * `bit_roaring_remove` takes memory. Fails only if the number is present. */
int32_t bit_roaring64_remove(bit_roaring64 *set, uint64_t value) BIT_SET_MAY_FAIL;

/* Removes numbers, in any order. Returns how many were present, or BIT_ROARING_NO_MEMORY: those before the one for which
 * memory ran out, which is present, are removed then. */
int64_t bit_roaring64_remove_members(bit_roaring64 *set, const uint64_t *members, size_t count) BIT_SET_MAY_FAIL;

/* Whether the number is a member. */
bool bit_roaring64_contains(const bit_roaring64 *set, uint64_t value) BIT_SET_CALL;

/* ---- Ends and searches. Each that finds a member writes it to `*member`, and returns whether there is one; if not,
 * `*member` is unchanged. None of these allocates. Any number may be given. */

/* The least and the greatest member. Read the first or the last container up to it. */
bool bit_roaring64_min(const bit_roaring64 *set, uint64_t *member) BIT_SET_CALL;
bool bit_roaring64_max(const bit_roaring64 *set, uint64_t *member) BIT_SET_CALL;

/* The least member that is `from` or above, and the greatest that is `last` or below. A search for the bitmap, and there two
 * by key, and one in each container. To iterate over many members, `bit_roaring64_copy_members` is faster. */
bool bit_roaring64_next(const bit_roaring64 *set, uint64_t from, uint64_t *member) BIT_SET_CALL;
bool bit_roaring64_previous(const bit_roaring64 *set, uint64_t last, uint64_t *member) BIT_SET_CALL;

/* How many members are at most `value`, or UINT64_MAX if all 2^64 numbers are. Adds up the counts of the containers before
 * it. */
uint64_t bit_roaring64_rank(const bit_roaring64 *set, uint64_t value) BIT_SET_CALL;

/* The member with exactly `n` others below it. Skips bitmaps and containers by their counts. */
bool bit_roaring64_select(const bit_roaring64 *set, uint64_t n, uint64_t *member) BIT_SET_CALL;

/* A loop over the members in ascending order, which declares the name `member`, a uint64_t, and another that begins with it.
 * The set may be changed in it: the loop continues at the next member of the changed set. */
#define BIT_ROARING64_FOR_EACH(member, set)                                                                            \
    for (uint64_t member = 0, member##_is_one = bit_roaring64_next(set, 0, &member); member##_is_one;                  \
         member##_is_one = member < UINT64_MAX && bit_roaring64_next(set, member + 1, &member))

/* ---- Ranges: the numbers that are at least `start` and below `end`, and none if `end` is `start` or below. So no range has
 * UINT64_MAX. The counts take two ranks. */

/* Insert or remove each number of the range, and return whether they could: if memory runs out, nothing changes. They fail
 * only if a number is new, or present. If all numbers have one key, and the set has its bitmap, that one is changed, as by the
 * call of `bit_roaring`. Otherwise each makes a bitmap for each key in the range, `remove_range` only for those that the set
 * has, and merges it. A bitmap of all numbers with one key is 65,536 containers of one run. */
bool bit_roaring64_insert_range(bit_roaring64 *set, uint64_t start, uint64_t end) BIT_SET_MAY_FAIL;
bool bit_roaring64_remove_range(bit_roaring64 *set, uint64_t start, uint64_t end) BIT_SET_MAY_FAIL;

/* Removes each member in the range, and inserts each other number of it. Returns whether it could: if memory runs out,
 * nothing changes. Fails only if the range has a number. Makes a bitmap for each key in the range, and merges it as
 * `symmetric_difference_with` does. `flipped` makes a new set instead, and may always fail. */
bool bit_roaring64_flip(bit_roaring64 *set, uint64_t start, uint64_t end) BIT_SET_MAY_FAIL;
bool bit_roaring64_flipped(bit_roaring64 **out, const bit_roaring64 *set, uint64_t start, uint64_t end) BIT_SET_MAY_FAIL;

/* Whether every number of the range is a member, which is true of an empty range. */
bool bit_roaring64_contains_range(const bit_roaring64 *set, uint64_t start, uint64_t end) BIT_SET_CALL;

/* How many numbers of the range are members. */
uint64_t bit_roaring64_range_cardinality(const bit_roaring64 *set, uint64_t start, uint64_t end) BIT_SET_CALL;

/* ---- Copies. A search for the bitmap, two by key in it, and then one step for each value that is copied and for each
 * bitmap, container and block. */

/* Copies the members at or above `from`, in ascending order, at most `room` of them. Returns how many; later values are
 * unchanged. To continue, pass the last one plus 1, unless that was UINT64_MAX. */
size_t bit_roaring64_copy_members(const bit_roaring64 *set, uint64_t from, uint64_t *members, size_t room) BIT_SET_CALL;

/* Copies the members at or below `last`, in descending order, at most `room` of them. Returns how many; later values are
 * unchanged. To continue, pass the last one minus 1, unless that was 0. With UINT64_MAX it begins at the greatest member. */
size_t bit_roaring64_copy_members_back(const bit_roaring64 *set, uint64_t last, uint64_t *members, size_t room)
    BIT_SET_CALL;

/* ---- Reading a set. None of these allocates. */

/* How many members there are, or UINT64_MAX for the set of all 2^64 numbers. Adds up the counts of the containers. */
uint64_t bit_roaring64_len(const bit_roaring64 *set) BIT_SET_CALL;

/* Whether there is no member. Constant time. */
bool bit_roaring64_is_empty(const bit_roaring64 *set) BIT_SET_CALL;

/* A hash of only the members: equal sets have the same, which is also what `bit_set_hash` returns for these members. It has
 * no secret key: whoever chooses the members can make hashes collide. One step for each member. */
uint64_t bit_roaring64_hash(const bit_roaring64 *set) BIT_SET_CALL;

/* ---- Two sets, which are read. In each of these both may be the same set. One pass over the bitmaps of both, and over each
 * pair with the same upper 32 bits as the call of `bit_roaring` takes. The relations end at the first bitmap that decides.
 * None of these allocates. */

/* Whether each member is in the other set, and the other way round. */
bool bit_roaring64_is_subset(const bit_roaring64 *set, const bit_roaring64 *other) BIT_SET_CALL;
bool bit_roaring64_is_superset(const bit_roaring64 *set, const bit_roaring64 *other) BIT_SET_CALL;

/* Whether each member is in the other set, which has at least one more. */
bool bit_roaring64_is_proper_subset(const bit_roaring64 *set, const bit_roaring64 *other) BIT_SET_CALL;

/* Whether no member is in the other set. */
bool bit_roaring64_is_disjoint(const bit_roaring64 *set, const bit_roaring64 *other) BIT_SET_CALL;

/* Whether the members are the same. The forms of the containers do not matter. */
bool bit_roaring64_equals(const bit_roaring64 *set, const bit_roaring64 *other) BIT_SET_CALL;

/* -1, 0 or 1, as the ascending lists of members compare by their first difference. Goes over the members of both up to the
 * first that differs. */
int32_t bit_roaring64_compare(const bit_roaring64 *set, const bit_roaring64 *other) BIT_SET_CALL;

/* How many numbers are in either set, in both, only in the first, or in exactly one of the two, or UINT64_MAX if all 2^64
 * are. */
uint64_t bit_roaring64_union_len(const bit_roaring64 *set, const bit_roaring64 *other) BIT_SET_CALL;
uint64_t bit_roaring64_intersection_len(const bit_roaring64 *set, const bit_roaring64 *other) BIT_SET_CALL;
uint64_t bit_roaring64_difference_len(const bit_roaring64 *set, const bit_roaring64 *other) BIT_SET_CALL;
uint64_t bit_roaring64_symmetric_difference_len(const bit_roaring64 *set, const bit_roaring64 *other) BIT_SET_CALL;

/* ---- In place. In none of these may `set` be the other set of the call. Each sets the members to those that the call of
 * the same name that makes a set has, and returns BIT_ROARING_YES if that changed them, BIT_ROARING_NO if not, or
 * BIT_ROARING_NO_MEMORY. The answer takes what `is_subset` or `is_disjoint` does, and the merge a search for each bitmap of
 * `other`: those that both sets have are merged into new ones, those that only `other` has are copied, and where one is
 * added or becomes empty those above move. `intersect_with` makes all bitmaps anew. `union_with` fails only if `other` has a
 * member that the set lacks, `symmetric_difference_with` only if `other` has a member, and the two others only if the set has
 * members that `other` has, and others that it lacks. */

int32_t bit_roaring64_union_with(bit_roaring64 *set, const bit_roaring64 *other) BIT_SET_MAY_FAIL;
int32_t bit_roaring64_intersect_with(bit_roaring64 *set, const bit_roaring64 *other) BIT_SET_MAY_FAIL;
int32_t bit_roaring64_difference_with(bit_roaring64 *set, const bit_roaring64 *other) BIT_SET_MAY_FAIL;
int32_t bit_roaring64_symmetric_difference_with(bit_roaring64 *set, const bit_roaring64 *other) BIT_SET_MAY_FAIL;

/* ---- A whole set. */

/* Removes every member, and gives the memory of the bitmaps back. */
void bit_roaring64_clear(bit_roaring64 *set) BIT_SET_CALL;

/* Converts each container to the form with the fewest bytes, preferring runs. BIT_ROARING_YES if one changed,
 * BIT_ROARING_NO if not, or BIT_ROARING_NO_MEMORY. The members stay in any case; if memory runs out, the containers before
 * the failure have their new form. Reads each member once, except those of runs. */
int32_t bit_roaring64_optimize(bit_roaring64 *set) BIT_SET_CALL;

/* Converts each container of runs to a list or blocks, and returns the same. If memory runs out, the containers before the
 * failure are converted. Writes each member of runs once. */
int32_t bit_roaring64_remove_runs(bit_roaring64 *set) BIT_SET_CALL;

/* Gives back the memory that is held and not used. One pass over the bitmaps and their containers. */
void bit_roaring64_shrink_to_fit(bit_roaring64 *set) BIT_SET_CALL;

/* ---- Bytes, in the portable form of Roaring bitmaps for 64 bits: how many bitmaps there are, as a uint64_t, and for each
 * the upper 32 bits, as a uint32_t, and what `bit_roaring_serialize` writes. Numbers are little endian. */

/* How many bytes `bit_roaring64_serialize` writes, or UINT64_MAX if there are more. Adds up those of the containers. */
uint64_t bit_roaring64_serialized_size(const bit_roaring64 *set) BIT_SET_CALL;

/* Writes the set to the front of the bytes; later ones are unchanged. `*size` is how many bytes it takes. BIT_ROARING_YES if
 * it did, BIT_ROARING_NO if `room` is less, or BIT_ROARING_NO_MEMORY. The bytes are unchanged unless it did, and so is
 * `*size` if memory runs out. Makes the bytes first, in memory of their own. */
int32_t bit_roaring64_serialize(const bit_roaring64 *set, uint8_t *bytes, size_t room, size_t *size) BIT_SET_MAY_FAIL;

/* The set that the first bytes represent, and in `*used` how many bytes that are: what follows is the caller's. No more than
 * `count` bytes are read, whatever they are. BIT_ROARING_YES, BIT_ROARING_NO_MEMORY, or the first fault of the bytes: in a
 * bitmap, from BIT_ROARING_SHORT to BIT_ROARING_BAD_RUNS, or between, from BIT_ROARING64_SHORT to
 * BIT_ROARING64_EMPTY_BITMAP. `*used` is unchanged if it fails. Reads each byte once. */
int32_t bit_roaring64_deserialize(bit_roaring64 **out, const uint8_t *bytes, size_t count, size_t *used)
    BIT_SET_MAY_FAIL;

/* ---- The calls that require two different sets, if BIT_ROARING_CHECKED is defined: each checks first. */

#ifdef BIT_ROARING_CHECKED

#include <stdio.h>
#include <stdlib.h>

#define BIT_ROARING_CHECK(type, call)                                                                                  \
    static inline int32_t type##_checked_##call(type *set, const type *other) {                                        \
        if (set == other) {                                                                                            \
            fprintf(stderr, "%s_%s: the call was given one set where it owes two\n", #type, #call);                    \
            abort();                                                                                                   \
        }                                                                                                              \
        return type##_##call(set, other);                                                                              \
    }

BIT_ROARING_CHECK(bit_roaring, union_with)
BIT_ROARING_CHECK(bit_roaring, intersect_with)
BIT_ROARING_CHECK(bit_roaring, difference_with)
BIT_ROARING_CHECK(bit_roaring, symmetric_difference_with)
BIT_ROARING_CHECK(bit_roaring64, union_with)
BIT_ROARING_CHECK(bit_roaring64, intersect_with)
BIT_ROARING_CHECK(bit_roaring64, difference_with)
BIT_ROARING_CHECK(bit_roaring64, symmetric_difference_with)

#undef BIT_ROARING_CHECK
#define bit_roaring_union_with bit_roaring_checked_union_with
#define bit_roaring_intersect_with bit_roaring_checked_intersect_with
#define bit_roaring_difference_with bit_roaring_checked_difference_with
#define bit_roaring_symmetric_difference_with bit_roaring_checked_symmetric_difference_with
#define bit_roaring64_union_with bit_roaring64_checked_union_with
#define bit_roaring64_intersect_with bit_roaring64_checked_intersect_with
#define bit_roaring64_difference_with bit_roaring64_checked_difference_with
#define bit_roaring64_symmetric_difference_with bit_roaring64_checked_symmetric_difference_with

#endif

#ifdef __cplusplus
}
#endif

#endif
