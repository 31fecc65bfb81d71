/* Random calls for C on sets of 64-bit numbers, each compared with a plain table of which numbers are in. Ends with status 1
 * at the first difference, and writes where that is.
 *   c_roaring64 [ROUNDS]    of some changes and reads each; 100 where it is not said */
#include "bit_roaring.h"
#include "c_draws.h"
#include "c_places.h"

#include <string.h>

/* The quarters of the table are the least numbers, those around 2^32, some from 5 * 2^32 on, and the greatest. */
static bit_roaring64 *sets[2];
static bool tables[2][LIMIT];
static uint64_t members[LIMIT + 1];

static uint64_t number_at(size_t place) {
    if (place < KEY)
        return place;
    if (place < 2 * KEY)
        return PAST - KEY / 2 + (place - KEY);
    if (place < 3 * KEY)
        return 5 * PAST + (place - 2 * KEY);
    return UINT64_MAX - (LIMIT - 1 - place);
}

/* The place before this one of a number that is in, or LIMIT where there is none. */
static size_t place_before(const bool *table, size_t place) {
    while (place > 0)
        if (table[--place])
            return place;
    return LIMIT;
}

/* What a call found and wrote is the number at the place, and nothing was written where that is LIMIT. */
static bool is_at(bool found, uint64_t member, size_t place) {
    return place < LIMIT ? found && member == number_at(place) : !found && member == 7;
}

static void change(bit_roaring64 *set, bool *table) {
    size_t count = draw(400), k;
    for (k = 0; k < count; k++) {
        size_t place = draw_place();
        uint64_t number = number_at(place);
        bool in = draw(3) > 0;
        CHECK(bit_roaring64_contains(set, number) == table[place]);
        if (in)
            CHECK(bit_roaring64_insert(set, number) == !table[place]);
        else
            CHECK(bit_roaring64_remove(set, number) == table[place]);
        table[place] = in;
    }
    count = draw(5000);
    for (k = 0; k < count; k++) {
        size_t place = draw(LIMIT);
        members[k] = number_at(place);
        table[place] = true;
    }
    CHECK(bit_roaring64_insert_members(set, members, count) == count);
    if (draw(40) == 0) {
        bit_roaring64_clear(set);
        memset(table, 0, LIMIT);
    }
}

/* Removes many numbers, some of them twice and some of them absent. */
static void remove_many(bit_roaring64 *set, bool *table) {
    size_t count = draw(5000), k;
    int64_t removed = 0;
    for (k = 0; k < count; k++) {
        size_t place = draw(LIMIT);
        members[k] = number_at(place);
        removed += table[place];
        table[place] = false;
    }
    CHECK(bit_roaring64_remove_members(set, members, count) == removed);
}

/* Flips a range within a quarter of the table, or an empty one. */
static void flip(bit_roaring64 *set, bool *table) {
    size_t quarter = draw(4) * KEY, start = quarter + draw(KEY), end = quarter + draw(KEY), place;
    bit_roaring64 *made = NULL;
    CHECK(bit_roaring64_flipped(&made, set, number_at(start), number_at(end)));
    CHECK(bit_roaring64_equals(set, made) == (end <= start));
    CHECK(bit_roaring64_flip(set, number_at(start), number_at(end)) && bit_roaring64_equals(set, made));
    for (place = start; place < end; place++)
        table[place] = !table[place];
    bit_roaring64_free(made);
}

/* Converts the containers: the members stay, and the best form has the fewest bytes. */
static void convert(bit_roaring64 *set) {
    bit_roaring64 *copy = NULL;
    uint64_t before = bit_roaring64_serialized_size(set), best;
    int32_t changed = bit_roaring64_optimize(set);
    best = bit_roaring64_serialized_size(set);
    CHECK(best <= before && (changed == BIT_ROARING_YES || (changed == BIT_ROARING_NO && best == before)));
    CHECK(bit_roaring64_clone(&copy, set) && bit_roaring64_optimize(set) == BIT_ROARING_NO);
    CHECK(bit_roaring64_remove_runs(set) >= 0 && bit_roaring64_remove_runs(set) == BIT_ROARING_NO);
    CHECK(bit_roaring64_serialized_size(set) >= best);
    bit_roaring64_shrink_to_fit(set);
    CHECK(bit_roaring64_equals(set, copy) && bit_roaring64_serialized_size(copy) == best);
    if (draw(2) == 0)
        CHECK(bit_roaring64_optimize(set) >= 0 && bit_roaring64_serialized_size(set) == best);
    bit_roaring64_free(copy);
}

static void change_in_place(bit_roaring64 *set, bool *table, const bit_roaring64 *other, const bool *with) {
    size_t call = draw(4), place;
    int32_t (*calls[])(bit_roaring64 *, const bit_roaring64 *) = {
        bit_roaring64_union_with, bit_roaring64_intersect_with, bit_roaring64_difference_with,
        bit_roaring64_symmetric_difference_with};
    bool changed = false, share = false;
    for (place = 0; place < LIMIT; place++) {
        bool a = table[place], b = with[place];
        bool in = call == 0 ? a || b : call == 1 ? a && b : call == 2 ? a && !b : a != b;
        changed |= in != a;
        share |= a && b;
        table[place] = in;
    }
    CHECK(calls[call](set, other) == changed);
    /* What both had is in neither after a symmetric difference, so that a union puts it back. */
    CHECK(calls[call == 3 ? 0 : call](set, other) == (call == 3 && share));
    for (place = 0; call == 3 && place < LIMIT; place++)
        table[place] = table[place] || with[place];
}

static void searches(const bit_roaring64 *set, const bool *table) {
    size_t place = draw(LIMIT), count = count_in(table, 0, LIMIT), below = count_in(table, 0, place), steps = 0;
    size_t next = next_place(table, place), last = table[place] ? place : place_before(table, place);
    uint64_t number = number_at(place), member = 7;
    bool found;
    CHECK(bit_roaring64_len(set) == count && bit_roaring64_is_empty(set) == (count == 0));
    CHECK(bit_roaring64_rank(set, number) == below + table[place]);
    CHECK(bit_roaring64_range_cardinality(set, 0, number) == below);
    CHECK(bit_roaring64_contains_range(set, number, number + (place < LIMIT - 1)) == (place == LIMIT - 1 || table[place]));
    found = bit_roaring64_next(set, number, &member);
    CHECK(is_at(found, member, next));
    member = 7;
    found = bit_roaring64_select(set, below, &member);
    CHECK(is_at(found, member, next));
    member = 7;
    found = bit_roaring64_previous(set, number, &member);
    CHECK(is_at(found, member, last));
    member = 7;
    found = bit_roaring64_min(set, &member);
    CHECK(is_at(found, member, next_place(table, 0)));
    member = 7;
    found = bit_roaring64_max(set, &member);
    CHECK(is_at(found, member, place_before(table, LIMIT)));
    place = 0;
    BIT_ROARING64_FOR_EACH(each, set) {
        place = next_place(table, place);
        CHECK(place < LIMIT && each == number_at(place++));
        if (++steps == 1000)
            break;
    }
    CHECK(steps == (count < 1000 ? count : 1000));
}

static void copies(const bit_roaring64 *set, const bool *table) {
    size_t place = draw(LIMIT), room = 1 + draw(9000), count, k;
    uint64_t number = number_at(place);
    members[room] = 7;
    count = bit_roaring64_copy_members(set, number, members, room);
    for (k = 0; k < count; k++) {
        place = next_place(table, place);
        CHECK(place < LIMIT && members[k] == number_at(place++));
    }
    CHECK(members[room] == 7 && (count == room || next_place(table, place) == LIMIT));
    place = draw(LIMIT);
    count = bit_roaring64_copy_members_back(set, number_at(place), members, room);
    for (k = 0, place++; k < count; k++) {
        place = place_before(table, place);
        CHECK(place < LIMIT && members[k] == number_at(place));
    }
    CHECK(members[room] == 7 && (count == room || place_before(table, place) == LIMIT));
}

static void two_sets(void) {
    bool (*makes[])(bit_roaring64 **, const bit_roaring64 *, const bit_roaring64 *) = {
        bit_roaring64_union, bit_roaring64_intersection, bit_roaring64_difference, bit_roaring64_symmetric_difference};
    uint64_t (*counts[])(const bit_roaring64 *, const bit_roaring64 *) = {
        bit_roaring64_union_len, bit_roaring64_intersection_len, bit_roaring64_difference_len,
        bit_roaring64_symmetric_difference_len};
    size_t call, place, common = 0, first = count_in(tables[0], 0, LIMIT), second = count_in(tables[1], 0, LIMIT);
    int32_t order = 0;
    for (place = 0; place < LIMIT; place++) {
        common += tables[0][place] && tables[1][place];
        if (order == 0 && tables[0][place] != tables[1][place]) {
            const bool *lacks = tables[0][place] ? tables[1] : tables[0];
            bool ends = next_place(lacks, place) == LIMIT;
            order = tables[0][place] == ends ? 1 : -1;
        }
    }
    for (call = 0; call < 4; call++) {
        size_t sizes[] = {first + second - common, common, first - common, first + second - 2 * common};
        bit_roaring64 *made = NULL;
        CHECK(makes[call](&made, sets[0], sets[1]));
        CHECK(bit_roaring64_len(made) == sizes[call] && counts[call](sets[0], sets[1]) == sizes[call]);
        CHECK(call != 1 || (bit_roaring64_is_subset(made, sets[0]) && bit_roaring64_is_superset(sets[1], made)));
        CHECK(call != 2 || bit_roaring64_is_disjoint(made, sets[1]));
        bit_roaring64_free(made);
    }
    CHECK(bit_roaring64_is_subset(sets[0], sets[1]) == (common == first));
    CHECK(bit_roaring64_is_superset(sets[0], sets[1]) == (common == second));
    CHECK(bit_roaring64_is_disjoint(sets[0], sets[1]) == (common == 0));
    CHECK(bit_roaring64_equals(sets[0], sets[1]) == (order == 0) && bit_roaring64_compare(sets[0], sets[1]) == order);
}

/* A set with the least and the greatest number, and some around 2^32. */
static void ends(void) {
    uint64_t numbers[] = {UINT64_MAX, PAST, 5, 0, PAST - 1, 5}, out[4] = {7, 7, 7, 7}, member = 7, sum = 0;
    bit_roaring64 *set = NULL, *copy = NULL;
    CHECK(bit_roaring64_from_members(&set, numbers, 6) && bit_roaring64_len(set) == 5);
    CHECK(bit_roaring64_rank(set, 4) == 1 && bit_roaring64_rank(set, PAST) == 4 && bit_roaring64_rank(set, UINT64_MAX) == 5);
    CHECK(bit_roaring64_select(set, 3, &member) && member == PAST);
    CHECK(bit_roaring64_select(set, 4, &member) && member == UINT64_MAX && !bit_roaring64_select(set, 5, &member));
    CHECK(bit_roaring64_next(set, 6, &member) && member == PAST - 1);
    CHECK(bit_roaring64_next(set, PAST + 1, &member) && member == UINT64_MAX);
    CHECK(bit_roaring64_previous(set, PAST - 2, &member) && member == 5);
    CHECK(bit_roaring64_previous(set, UINT64_MAX - 1, &member) && member == PAST);
    CHECK(bit_roaring64_range_cardinality(set, 5, PAST + 1) == 3 && bit_roaring64_range_cardinality(set, 5, 5) == 0);
    CHECK(bit_roaring64_range_cardinality(set, 0, UINT64_MAX) == 4 && bit_roaring64_contains_range(set, PAST - 1, PAST + 1));
    CHECK(!bit_roaring64_contains_range(set, PAST - 1, PAST + 2) && bit_roaring64_contains_range(set, 9, 8));
    CHECK(bit_roaring64_push(set, UINT64_MAX) == BIT_ROARING_NO);
    CHECK(bit_roaring64_copy_members(set, 1, out, 3) == 3 && out[0] == 5 && out[1] == PAST - 1 && out[2] == PAST);
    CHECK(bit_roaring64_copy_members_back(set, PAST, out, 2) == 2 && out[0] == PAST && out[1] == PAST - 1 && out[3] == 7);
    /* The loop ends behind the greatest number, though no number is above it: 0 + 5 + (2^32 - 1) + 2^32 - 1. */
    BIT_ROARING64_FOR_EACH(each, set) sum += each;
    CHECK(sum == 8589934595);
    CHECK(bit_roaring64_clone(&copy, set) && bit_roaring64_remove(set, UINT64_MAX) == BIT_ROARING_YES);
    CHECK(bit_roaring64_max(set, &member) && member == PAST && bit_roaring64_is_subset(set, copy));
    CHECK(!bit_roaring64_next(set, PAST + 1, &member) && member == PAST && !bit_roaring64_equals(set, copy));
    CHECK(bit_roaring64_difference_len(copy, set) == 1 && bit_roaring64_union_len(set, set) == 4);
    CHECK(bit_roaring64_is_proper_subset(set, copy) && !bit_roaring64_is_proper_subset(set, set));
    CHECK(bit_roaring64_push(set, PAST) == BIT_ROARING_NO && bit_roaring64_push(set, PAST + 1) == BIT_ROARING_YES);
    CHECK(bit_roaring64_max(set, &member) && member == PAST + 1);
    CHECK(bit_roaring64_insert_range(set, PAST - 3, PAST + 2) && bit_roaring64_range_cardinality(set, PAST - 3, PAST + 2) == 5);
    CHECK(bit_roaring64_remove_range(set, 0, PAST + 1) && bit_roaring64_len(set) == 1);
    CHECK(bit_roaring64_min(set, &member) && member == PAST + 1);
    bit_roaring64_free(set);
    bit_roaring64_free(copy);
    bit_roaring64_free(NULL);
}

/* Flips, removals and forms of a small set, by exact values. */
static void forms_of_few(void) {
    uint64_t numbers[] = {1, 4, PAST, UINT64_MAX}, gone[] = {5, PAST, 5, 7, UINT64_MAX}, out[5] = {7, 7, 7, 7, 7};
    bit_roaring64 *set = NULL, *made = NULL;
    CHECK(bit_roaring64_from_members(&set, numbers, 4) && bit_roaring64_flip(set, 3, 6));
    CHECK(bit_roaring64_copy_members(set, 0, out, 5) == 5 && out[0] == 1 && out[1] == 3 && out[2] == 5 && out[3] == PAST);
    CHECK(bit_roaring64_flip(set, 6, 6) && bit_roaring64_flip(set, 6, 3) && bit_roaring64_len(set) == 5);
    CHECK(bit_roaring64_remove_members(set, gone, 5) == 3 && bit_roaring64_remove_members(set, gone, 0) == 0);
    CHECK(bit_roaring64_copy_members(set, 0, out, 5) == 2 && out[0] == 1 && out[1] == 3 && out[2] == 5);
    CHECK(bit_roaring64_flipped(&made, set, PAST - 1, PAST + 2) && bit_roaring64_len(made) == 5);
    CHECK(bit_roaring64_contains_range(made, PAST - 1, PAST + 2) && bit_roaring64_len(set) == 2);
    CHECK(bit_roaring64_flip(made, UINT64_MAX - 2, UINT64_MAX) && !bit_roaring64_contains(made, UINT64_MAX));
    CHECK(bit_roaring64_contains_range(made, UINT64_MAX - 2, UINT64_MAX));
    bit_roaring64_free(set);
    bit_roaring64_free(made);
    set = NULL;
    /* 1,000 numbers in a row: 8 bytes for the count of bitmaps, 4 for the key, 4 for the form's number with that of the
     * containers, 1 for which of these are runs, 4 for the container's key and count, and 6 for one run. Those of a list are
     * 8 for the form's number and that of the containers, 4, 4 for the place, and 2,000. */
    CHECK(bit_roaring64_new(&set) && bit_roaring64_serialized_size(set) == 8);
    CHECK(bit_roaring64_optimize(set) == BIT_ROARING_NO && bit_roaring64_remove_runs(set) == BIT_ROARING_NO);
    CHECK(bit_roaring64_insert_range(set, PAST, PAST + 1000) && bit_roaring64_optimize(set) >= 0);
    CHECK(bit_roaring64_serialized_size(set) == 27 && bit_roaring64_optimize(set) == BIT_ROARING_NO);
    CHECK(bit_roaring64_remove_runs(set) == BIT_ROARING_YES && bit_roaring64_serialized_size(set) == 2028);
    CHECK(bit_roaring64_remove_runs(set) == BIT_ROARING_NO && bit_roaring64_optimize(set) == BIT_ROARING_YES);
    bit_roaring64_shrink_to_fit(set);
    CHECK(bit_roaring64_len(set) == 1000 && bit_roaring64_serialized_size(set) == 27);
    bit_roaring64_free(set);
}

/* How many bitmaps there are, and for each its key, the form's number, one container, its key and how many members it has
 * besides one, its place, and its members: 3, 4 and 2^32 + 7. */
static const uint8_t written_of_three[] = {2, 0, 0, 0, 0, 0, 0, 0,
                                    0, 0, 0, 0, 58, 48, 0, 0, 1, 0, 0, 0, 0, 0, 1, 0, 16, 0, 0, 0, 3, 0, 4, 0,
                                    1, 0, 0, 0, 58, 48, 0, 0, 1, 0, 0, 0, 0, 0, 0, 0, 16, 0, 0, 0, 7, 0};

/* The bytes are no set, for this reason, if one of them is another. */
static void broken(size_t at, uint8_t byte, size_t count, int32_t answer) {
    uint8_t bytes[sizeof written_of_three];
    bit_roaring64 *set = NULL;
    size_t used = 7;
    memcpy(bytes, written_of_three, sizeof bytes);
    bytes[at] = byte;
    CHECK(bit_roaring64_deserialize(&set, bytes, count, &used) == answer && set == NULL && used == 7);
}

static void bytes_of_three(void) {
    static const uint8_t empty_bitmap[] = {1, 0, 0, 0, 0, 0, 0, 0, 9, 0, 0, 0, 58, 48, 0, 0, 0, 0, 0, 0};
    uint64_t numbers[] = {PAST + 7, 3, 4};
    uint8_t bytes[sizeof written_of_three + 1];
    size_t size = 0, used = 7;
    bit_roaring64 *set = NULL, *again = NULL;
    CHECK(bit_roaring64_from_members(&set, numbers, 3));
    memset(bytes, 0xaa, sizeof bytes);
    CHECK(bit_roaring64_serialize(set, bytes, 53, &size) == BIT_ROARING_NO && size == 54 && bytes[0] == 0xaa);
    CHECK(bit_roaring64_serialize(set, bytes, 55, &size) == BIT_ROARING_YES && size == 54 && bytes[54] == 0xaa);
    CHECK(memcmp(bytes, written_of_three, 54) == 0);
    CHECK(bit_roaring64_deserialize(&again, bytes, 55, &used) == BIT_ROARING_YES && used == 54);
    CHECK(bit_roaring64_equals(set, again));
    bit_roaring64_free(set);
    bit_roaring64_free(again);
    set = NULL;
    broken(0, 2, 7, BIT_ROARING64_SHORT);
    broken(0, 3, 54, BIT_ROARING64_SHORT);
    broken(32, 0, 54, BIT_ROARING64_BAD_KEYS);
    broken(0, 2, 53, BIT_ROARING_SHORT);
    broken(12, 1, 54, BIT_ROARING_BAD_COOKIE);
    broken(30, 3, 54, BIT_ROARING_BAD_ORDER);
    CHECK(bit_roaring64_deserialize(&set, empty_bitmap, sizeof empty_bitmap, &used) == BIT_ROARING64_EMPTY_BITMAP);
    /* The set without members has the count of bitmaps alone. */
    CHECK(bit_roaring64_new(&set) && bit_roaring64_serialize(set, bytes, 8, &size) == BIT_ROARING_YES && size == 8);
    bit_roaring64_free(set);
}

/* The bytes of a set are read back, and no front of them is. */
static void bytes(const bit_roaring64 *set) {
    size_t size, used = 7;
    uint8_t *written = malloc(1);
    bit_roaring64 *again = NULL;
    CHECK(written != NULL && bit_roaring64_serialize(set, written, 0, &size) == BIT_ROARING_NO);
    CHECK(bit_roaring64_serialized_size(set) == size);
    free(written);
    written = malloc(size);
    CHECK(written != NULL && bit_roaring64_serialize(set, written, size, &size) == BIT_ROARING_YES);
    CHECK(bit_roaring64_deserialize(&again, written, size - 1, &used) < BIT_ROARING_NO_MEMORY && again == NULL && used == 7);
    CHECK(bit_roaring64_deserialize(&again, written, size, &used) == BIT_ROARING_YES && used == size);
    CHECK(bit_roaring64_equals(set, again));
    bit_roaring64_free(again);
    free(written);
}

/* The hash of the members does not depend on the type. */
static void hashes(void) {
    uint64_t number;
    bit_roaring *small = NULL;
    bit_roaring64 *large = NULL;
    CHECK(bit_roaring_new(&small) && bit_roaring64_new(&large));
    for (number = 3; number < 100000; number += 1000)
        CHECK(bit_roaring_insert(small, (uint32_t)number) == 1 && bit_roaring64_insert(large, number) == 1);
    CHECK(bit_roaring_hash(small) == bit_roaring64_hash(large));
    bit_roaring_free(small);
    bit_roaring64_free(large);
}

int main(int argc, char **argv) {
    /* A round has some forty times as many calls as one of the sets of bits, by which an argument counts. */
    long rounds = argc > 1 ? (atol(argv[1]) + 39) / 40 : 100;
    ends();
    forms_of_few();
    bytes_of_three();
    hashes();
    CHECK(bit_roaring64_new(&sets[0]) && bit_roaring64_from_members(&sets[1], members, 0));
    while (rounds-- > 0) {
        size_t which = draw(2);
        if (draw(3) > 0)
            change(sets[which], tables[which]);
        else if (draw(2) > 0)
            flip(sets[which], tables[which]);
        else
            change_in_place(sets[which], tables[which], sets[1 - which], tables[1 - which]);
        if (draw(3) == 0)
            remove_many(sets[which], tables[which]);
        if (draw(3) == 0)
            convert(sets[which]);
        searches(sets[which], tables[which]);
        copies(sets[which], tables[which]);
        two_sets();
        bytes(sets[which]);
    }
    bit_roaring64_free(sets[0]);
    bit_roaring64_free(sets[1]);
    return 0;
}
