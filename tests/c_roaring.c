/* Random calls for C on Roaring bitmaps, each compared with a plain table of which numbers are in. Ends with status 1 at the
 * first difference, and writes where that is.
 *   c_roaring [ROUNDS]      of one change and some twenty reads each; 500 where it is not said */
#include "bit_roaring.h"
#include "bit_set.h"
#include "c_draws.h"
#include "c_places.h"

#include <string.h>

/* The table has the numbers with four keys: place i stands for i, and in the last quarter for the number as far from 2^32 as
 * i is from the end. */
static bit_roaring *sets[2];
static bool tables[2][LIMIT];
static uint32_t members[LIMIT + 1];

static uint64_t number_at(size_t place) { return place < 3 * KEY ? place : PAST - (LIMIT - place); }

/* The place of the first number of the table that is this one or above. */
static size_t place_of(uint64_t number) {
    if (number <= 3 * KEY)
        return (size_t)number;
    if (number >= PAST)
        return LIMIT;
    return number < PAST - KEY ? 3 * KEY : (size_t)(LIMIT - (PAST - number));
}

static void change_one(bit_roaring *set, bool *table) {
    size_t count = draw(400), k;
    for (k = 0; k < count; k++) {
        size_t place = draw_place();
        uint32_t number = (uint32_t)number_at(place);
        bool in = draw(3) > 0;
        CHECK(bit_roaring_contains(set, number) == table[place]);
        if (in)
            CHECK(bit_roaring_insert(set, number) == !table[place]);
        else
            CHECK(bit_roaring_remove(set, number) == table[place]);
        table[place] = in;
    }
}

static void change_range(bit_roaring *set, bool *table) {
    size_t start = draw_place(), end = draw(2) ? start + draw(5000) : draw(LIMIT + 1), k;
    uint64_t from, to;
    bool in = draw(2);
    if (end > LIMIT)
        end = LIMIT;
    /* The numbers of the range are then all in the table. */
    if (start < 3 * KEY && end > 3 * KEY)
        end = 3 * KEY;
    from = number_at(start);
    to = start < 3 * KEY ? end : PAST - (LIMIT - end);
    if (end <= start)
        to = 0;
    k = count_in(table, start, end);
    CHECK(bit_roaring_range_cardinality(set, from, to) == k);
    CHECK(bit_roaring_intersects_range(set, from, to) == (k > 0));
    CHECK(bit_roaring_contains_range(set, from, to) == (end <= start || k == end - start));
    if (in)
        CHECK(bit_roaring_insert_range(set, from, to) == (end <= start ? 0 : (int64_t)(end - start - k)));
    else
        CHECK(bit_roaring_remove_range(set, from, to) == (int64_t)k);
    for (; start < end; start++)
        table[start] = in;
}

static void change_by_lists(bit_roaring *set, bool *table) {
    size_t count = draw(300), k, done = 0, last;
    for (k = 0; k < count; k++) {
        size_t place = draw_place();
        members[k] = (uint32_t)number_at(place);
        table[place] = true;
    }
    CHECK(bit_roaring_insert_members(set, members, count) == count);
    for (last = LIMIT; last > 0 && !table[last - 1]; last--)
        ;
    if (last == 0 || last == LIMIT)
        return;
    CHECK(bit_roaring_push(set, (uint32_t)number_at(last - 1)) == BIT_ROARING_NO);
    members[0] = (uint32_t)number_at(last);
    members[1] = members[0];
    CHECK(bit_roaring_append_members(set, members, 2, &done) == BIT_ROARING_NOT_SORTED && done == 1);
    table[last] = true;
    CHECK(bit_roaring_append_members(set, members, 0, &done) == BIT_ROARING_YES && done == 0);
}

static void change_in_place(bit_roaring *set, bool *table, const bit_roaring *other, const bool *with) {
    size_t call = draw(4), place;
    int32_t (*calls[])(bit_roaring *, const bit_roaring *) = {bit_roaring_union_with, bit_roaring_intersect_with,
                                                              bit_roaring_difference_with,
                                                              bit_roaring_symmetric_difference_with};
    bool changed = false;
    for (place = 0; place < LIMIT; place++) {
        bool a = table[place], b = with[place];
        bool in = call == 0 ? a || b : call == 1 ? a && b : call == 2 ? a && !b : a != b;
        changed |= in != a;
        table[place] = in;
    }
    CHECK(calls[call](set, other) == changed);
}

/* A range that is flipped as a new set and back, the numbers that are missing, and all members taken out. */
static void flips_and_gaps(const bit_roaring *set) {
    bit_roaring *flipped = NULL;
    uint64_t from = draw(2000), to = from + 3000, count = bit_roaring_range_cardinality(set, from, to);
    uint64_t missing = bit_roaring_next_missing(set, (uint32_t)from);
    size_t room;
    CHECK(bit_roaring_flipped(&flipped, set, from, to));
    CHECK(bit_roaring_range_cardinality(flipped, from, to) == 3000 - count);
    CHECK(bit_roaring_flip(flipped, from, to) && bit_roaring_equals(set, flipped));
    CHECK(!bit_roaring_is_proper_subset(set, flipped));
    CHECK(missing == bit_roaring_first_gap(set, (uint32_t)from, 1) && !bit_roaring_contains(set, (uint32_t)missing));
    CHECK(missing == from || bit_roaring_contains_range(set, from, missing));
    CHECK(bit_roaring_first_gap(set, 0, ((uint64_t)1 << 32) + 1) == BIT_ROARING_NONE);
    room = bit_roaring_copy_members(flipped, 0, members, 1000);
    CHECK(bit_roaring_remove_members(flipped, members, room) == (int64_t)room);
    CHECK(bit_roaring_remove_members(flipped, members, room) == 0);
    CHECK(bit_roaring_is_proper_subset(flipped, set) == (room > 0));
    bit_roaring_shrink_to_fit(flipped);
    bit_roaring_free(flipped);
}

/* A set that is moved down and up again: it lacks the members below the distance. */
static void offsets(const bit_roaring *set) {
    bit_roaring *down = NULL, *again = NULL;
    uint64_t distance = draw(2000), count = bit_roaring_range_cardinality(set, 0, distance);
    CHECK(bit_roaring_add_offset(&down, set, -(int64_t)distance));
    CHECK(bit_roaring_add_offset(&again, down, (int64_t)distance));
    CHECK(bit_roaring_len(down) == bit_roaring_len(set) - count && bit_roaring_is_subset(again, set));
    CHECK(bit_roaring_len(again) == bit_roaring_len(down));
    CHECK(bit_roaring_range_cardinality(again, 0, distance) == 0);
    bit_roaring_free(again);
    bit_roaring_free(down);
}

/* The members, forwards and backwards, by a buffer that is often too small. */
static void copies(const bit_roaring *set, const bool *table) {
    size_t place = 0, room = 1 + draw(9000), count, k;
    uint64_t from = 0;
    while ((count = bit_roaring_copy_members(set, from, members, room)) > 0) {
        for (k = 0; k < count; k++, place++) {
            place = next_place(table, place);
            CHECK(place < LIMIT && members[k] == number_at(place));
        }
        from = (uint64_t)members[count - 1] + 1;
    }
    CHECK(next_place(table, place) == LIMIT);
    place = draw(LIMIT + 1);
    from = place < LIMIT ? number_at(place) : UINT64_MAX;
    count = bit_roaring_copy_members_back(set, from, members, room);
    for (k = 0; k < count; k++) {
        do
            CHECK(place > 0);
        while (!table[--place]);
        CHECK(members[k] == number_at(place));
    }
    CHECK(count == room || count_in(table, 0, place) == 0);
}

static void searches(const bit_roaring *set, const bool *table) {
    size_t place = draw(LIMIT), count = count_in(table, 0, LIMIT), below = count_in(table, 0, place), next, k;
    uint64_t number = number_at(place), steps = 0;
    CHECK(bit_roaring_len(set) == count && bit_roaring_is_empty(set) == (count == 0));
    CHECK(bit_roaring_rank(set, (uint32_t)number) == below + table[place]);
    next = next_place(table, place);
    CHECK(bit_roaring_next(set, number) == (next < LIMIT ? number_at(next) : BIT_ROARING_NONE));
    CHECK(bit_roaring_select(set, (uint32_t)below) == (next < LIMIT ? number_at(next) : BIT_ROARING_NONE));
    for (k = place; k > 0 && !table[k - 1]; k--)
        ;
    CHECK(bit_roaring_previous(set, number) == (k > 0 ? number_at(k - 1) : BIT_ROARING_NONE));
    CHECK(bit_roaring_min(set) == bit_roaring_next(set, 0) && bit_roaring_max(set) == bit_roaring_previous(set, PAST));
    CHECK(bit_roaring_next(set, PAST) == BIT_ROARING_NONE && bit_roaring_previous(set, 0) == BIT_ROARING_NONE);
    BIT_ROARING_FOR_EACH(member, set) {
        CHECK(table[place_of(member)]);
        if (++steps == 1000)
            break;
    }
    CHECK(steps == (count < 1000 ? count : 1000));
}

/* The bytes of a set are read back, and no front of them is. */
static void bytes(bit_roaring *set) {
    size_t size = bit_roaring_serialized_size(set), used = 7;
    uint8_t *written = malloc(size + 3);
    bit_roaring *again = NULL;
    bit_roaring_kinds kinds;
    CHECK(written != NULL);
    memset(written, 0xaa, size + 3);
    CHECK(bit_roaring_serialize(set, written, size - 1) == BIT_ROARING_NO && written[0] == 0xaa);
    CHECK(bit_roaring_serialize(set, written, size + 1) == BIT_ROARING_YES && written[size] == 0xaa);
    CHECK(bit_roaring_deserialize(&again, written, size - 1, &used) < BIT_ROARING_NO_MEMORY && again == NULL && used == 7);
    CHECK(bit_roaring_deserialize(&again, written, size + 3, &used) == BIT_ROARING_YES && used == size);
    CHECK(bit_roaring_equals(set, again) && bit_roaring_compare(set, again) == 0);
    CHECK(bit_roaring_hash(set) == bit_roaring_hash(again));
    bit_roaring_statistics(set, &kinds);
    CHECK(kinds.lists.members + kinds.blocks.members + kinds.runs.members == bit_roaring_len(set));
    written[0] ^= 1;
    written[1] ^= 2;
    bit_roaring_free(again);
    again = NULL;
    CHECK(bit_roaring_deserialize(&again, written, size, &used) == BIT_ROARING_BAD_COOKIE && again == NULL);
    free(written);
}

static void two_sets(void) {
    bool (*makes[])(bit_roaring **, const bit_roaring *, const bit_roaring *) = {
        bit_roaring_union, bit_roaring_intersection, bit_roaring_difference, bit_roaring_symmetric_difference};
    uint64_t (*counts[])(const bit_roaring *, const bit_roaring *) = {
        bit_roaring_union_len, bit_roaring_intersection_len, bit_roaring_difference_len,
        bit_roaring_symmetric_difference_len};
    size_t call, place, common = 0, first = count_in(tables[0], 0, LIMIT), second = count_in(tables[1], 0, LIMIT);
    int32_t order = 0;
    for (place = 0; place < LIMIT; place++) {
        common += tables[0][place] && tables[1][place];
        if (order == 0 && tables[0][place] != tables[1][place]) {
            const bool *lacks = tables[0][place] ? tables[1] : tables[0];
            bool ends = next_place(lacks, place) == LIMIT;
            order = tables[0][place] == ends ? 1 : -1;
        }
    }
    for (call = 0; call < 4; call++) {
        size_t sizes[] = {first + second - common, common, first - common, first + second - 2 * common};
        bit_roaring *made = NULL;
        CHECK(makes[call](&made, sets[0], sets[1]));
        CHECK(bit_roaring_len(made) == sizes[call] && counts[call](sets[0], sets[1]) == sizes[call]);
        CHECK(call != 1 || (bit_roaring_is_subset(made, sets[0]) && bit_roaring_is_superset(sets[1], made)));
        CHECK(call != 2 || bit_roaring_is_disjoint(made, sets[1]));
        bit_roaring_free(made);
    }
    CHECK(bit_roaring_is_subset(sets[0], sets[1]) == (common == first));
    CHECK(bit_roaring_is_superset(sets[0], sets[1]) == (common == second));
    CHECK(bit_roaring_is_disjoint(sets[0], sets[1]) == (common == 0));
    CHECK(bit_roaring_equals(sets[0], sets[1]) == (order == 0) && bit_roaring_compare(sets[0], sets[1]) == order);
}

/* A set of bits of the members, and of one more that is too great. */
static void conversions(const bit_roaring *set, const bool *table) {
    bit_set *bits = NULL;
    bit_roaring *again = NULL;
    size_t place = draw(LIMIT);
    CHECK(bit_set_from_roaring(&bits, set));
    CHECK(bit_set_count(bits) == bit_roaring_len(set) && bit_set_contains(bits, number_at(place)) == table[place]);
    CHECK(bit_set_to_roaring(&again, bits) == BIT_SET_YES && bit_roaring_equals(set, again));
    bit_roaring_free(again);
    again = NULL;
    CHECK(bit_set_insert(bits, PAST) == BIT_SET_YES);
    CHECK(bit_set_to_roaring(&again, bits) == BIT_SET_NO_ELEMENT && again == NULL);
    bit_set_free(bits);
}

static void whole_sets(size_t which) {
    bit_roaring *copy = NULL;
    CHECK(bit_roaring_clone(&copy, sets[which]));
    CHECK(bit_roaring_optimize(copy) >= 0 && bit_roaring_optimize(copy) == BIT_ROARING_NO);
    CHECK(bit_roaring_serialized_size(copy) <= bit_roaring_serialized_size(sets[which]));
    bytes(copy);
    CHECK(bit_roaring_remove_runs(copy) >= 0 && bit_roaring_remove_runs(copy) == BIT_ROARING_NO);
    CHECK(bit_roaring_equals(copy, sets[which]));
    if (draw(8) == 0)
        conversions(copy, tables[which]);
    bit_roaring_free(sets[which]);
    sets[which] = copy;
    if (draw(40) == 0) {
        bit_roaring_clear(copy);
        memset(tables[which], 0, LIMIT);
    }
}

int main(int argc, char **argv) {
    /* A round has some forty times as many calls as one of the sets of bits, by which an argument counts. */
    long rounds = argc > 1 ? (atol(argv[1]) + 39) / 40 : 500;
    CHECK(bit_roaring_new(&sets[0]) && bit_roaring_from_members(&sets[1], members, 0));
    while (rounds-- > 0) {
        size_t which = draw(2), call = draw(7);
        if (call < 2)
            change_one(sets[which], tables[which]);
        else if (call < 4)
            change_range(sets[which], tables[which]);
        else if (call == 4)
            change_by_lists(sets[which], tables[which]);
        else if (call == 5)
            change_in_place(sets[which], tables[which], sets[1 - which], tables[1 - which]);
        else
            whole_sets(which);
        searches(sets[which], tables[which]);
        copies(sets[which], tables[which]);
        flips_and_gaps(sets[which]);
        offsets(sets[which]);
        two_sets();
    }
    bit_roaring_free(sets[0]);
    bit_roaring_free(sets[1]);
    return 0;
}
