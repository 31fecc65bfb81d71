/* Random calls for C on ranges, ends, single numbers, stretches, shifts and copies, and merges that say whether they
 * changed anything, each compared with a plain table of which numbers are in. It ends with status 1 at the first
 * difference, and writes where that is.
 *   c_calls [ROUNDS]      of some twelve calls each; 5000 where it is not said */
#include "bit_set.h"
#include "c_draws.h"

#include <string.h>

/* Each number is below it. So long a list stores a summary, over blocks of 64 bits too. */
#define LIMIT 20000

static bit_set *sets[3];
static bool tables[3][LIMIT];

static size_t next_in(const bool *table, size_t from, bool in) {
    while (from < LIMIT && table[from] != in)
        from++;
    return from < LIMIT ? from : SIZE_MAX;
}

static size_t previous_in(const bool *table, size_t end) {
    if (end > LIMIT)
        end = LIMIT;
    while (end > 0 && !table[end - 1])
        end--;
    return end > 0 ? end - 1 : SIZE_MAX;
}

static size_t count_in(const bool *table, size_t start, size_t end) {
    size_t count = 0;
    for (; start < end; start++)
        count += table[start];
    return count;
}

static void single_numbers(bit_set *set, bool *table) {
    size_t n = draw(LIMIT);
    bool bit = draw(2) == 1;
    CHECK(bit_set_set(set, n, bit) == (table[n] != bit));
    table[n] = bit;
    n = draw(LIMIT);
    table[n] = !table[n];
    CHECK(bit_set_toggle(set, n) == table[n]);
    CHECK(bit_set_toggle(set, SIZE_MAX) == BIT_SET_NO_ELEMENT && bit_set_set(set, SIZE_MAX, false) == 0);
    CHECK(bit_set_set(set, SIZE_MAX, true) == BIT_SET_NO_ELEMENT);
}

static void ranges(bit_set *set, bool *table) {
    size_t start = draw(LIMIT), end = draw(LIMIT + 1), call = draw(3);
    size_t count = count_in(table, start, end), size = start < end ? end - start : 0;
    CHECK(bit_set_count_in_range(set, start, end) == count);
    CHECK(bit_set_contains_all_in_range(set, start, end) == (count == size));
    CHECK(bit_set_contains_any_in_range(set, start, end) == (count > 0));
    CHECK(bit_set_same_in_range(set, set, start, end));
    if (call == 0)
        CHECK(bit_set_insert_range(set, start, end));
    else if (call == 1)
        CHECK(bit_set_toggle_range(set, start, end));
    else
        bit_set_remove_range(set, start, end);
    for (; start < end; start++)
        table[start] = call == 0 || (call == 1 && !table[start]);
}

static void ends(bit_set *set, bool *table) {
    size_t first = next_in(table, 0, true), last = previous_in(table, LIMIT);
    CHECK(bit_set_first(set) == first && bit_set_last(set) == last);
    if (draw(4) > 0)
        return;
    CHECK(bit_set_pop_first(set) == first);
    if (first != SIZE_MAX)
        table[first] = false;
    last = previous_in(table, LIMIT);
    CHECK(bit_set_pop_last(set) == last);
    if (last != SIZE_MAX)
        table[last] = false;
}

static void searches(const bit_set *set, const bool *table) {
    size_t n = draw(LIMIT), missing = next_in(table, n, false);
    CHECK(bit_set_next(set, n) == next_in(table, n, true));
    CHECK(bit_set_previous(set, n) == previous_in(table, n));
    CHECK(bit_set_next_missing(set, n) == (missing == SIZE_MAX ? LIMIT : missing));
    size_t skipped = draw(20), member = next_in(table, n, true);
    for (size_t k = 0; k < skipped && member != SIZE_MAX; k++)
        member = next_in(table, member + 1, true);
    CHECK(bit_set_nth(set, n, skipped) == member);
}

/* The first run from a number on, and the first gap of some length. */
static void stretches(const bit_set *set, const bool *table) {
    size_t n = draw(LIMIT), first = next_in(table, n, true), start = 7, end = 8;
    CHECK(bit_set_next_run(set, n, &start, &end) == (first != SIZE_MAX));
    size_t missing = first == SIZE_MAX ? SIZE_MAX : next_in(table, first, false);
    CHECK(first == SIZE_MAX ? start == 7 && end == 8 : start == first && end == (missing == SIZE_MAX ? LIMIT : missing));
    size_t count = draw(40), gap = n, found = 7;
    for (size_t k = 0; k < count; k++)
        if (gap + k < LIMIT && table[gap + k]) {
            gap += k + 1;
            k = SIZE_MAX;
        }
    CHECK(bit_set_first_gap(set, n, count, &found) && found == gap);
    found = 7;
    CHECK(!bit_set_first_gap(set, n + 1, SIZE_MAX - n, &found) && found == 7);
}

/* Moves all members up and down again, and copies a part. */
static void shifts(bit_set *set, bool *table) {
    size_t distance = draw(200), last = previous_in(table, LIMIT), start = draw(LIMIT), end = draw(LIMIT);
    if (last != SIZE_MAX)
        CHECK(bit_set_shift_up(set, SIZE_MAX - last) == BIT_SET_NO_ELEMENT);
    if (last != SIZE_MAX && last + distance < LIMIT) {
        CHECK(bit_set_shift_up(set, distance) == BIT_SET_YES);
        memmove(table + distance, table, (last + 1) * sizeof *table);
        memset(table, 0, distance * sizeof *table);
    } else {
        bit_set_shift_down(set, distance);
        memmove(table, table + distance, (LIMIT - distance) * sizeof *table);
        memset(table + LIMIT - distance, 0, distance * sizeof *table);
    }
    bit_set *part = NULL;
    CHECK(bit_set_copy_range(&part, set, start, end));
    CHECK(bit_set_count(part) == count_in(table, start, end) && bit_set_next(part, 0) == bit_set_first(part));
    for (size_t n = start; n < end; n++)
        CHECK(bit_set_contains(part, n) == table[n]);
    CHECK(bit_set_is_proper_subset(part, set) == (bit_set_count(part) < bit_set_count(set)));
    CHECK(!bit_set_is_proper_subset(set, part));
    bit_set_free(part);
}

/* Copies from a number on, or from one down, and into blocks. Past what is copied nothing is written. */
static void copies(bit_set *set, bool *table) {
    size_t members[9], n = draw(LIMIT), end = n;
    members[8] = 7;
    size_t count = bit_set_copy_members_back(set, n, members, draw(9));
    for (size_t k = 0; k < count; k++) {
        end = previous_in(table, end);
        CHECK(members[k] == end);
    }
    CHECK(count <= 8 && members[8] == 7);
    uint8_t bytes[9] = {0}, last = bytes[8] = 7;
    size_t from = draw(LIMIT / 8), room = draw(9);
    count = bit_set_copy_bytes(set, from, bytes, room);
    for (size_t k = 0; k < 8 * count; k++)
        CHECK((bytes[k / 8] >> (7 - k % 8) & 1) == table[8 * from + k]);
    CHECK(count <= room && (8 * (from + count) >= bit_set_length(set) || count == room) && bytes[8] == last);
    CHECK(bit_set_copy_bytes_lsb(set, from, bytes, room) == count && bytes[8] == last);
    for (size_t k = 0; k < 8 * count; k++)
        CHECK((bytes[k / 8] >> k % 8 & 1) == table[8 * from + k]);
    bit_set *part = NULL;
    CHECK(bit_set_from_bytes_lsb(&part, bytes, count) && bit_set_length(part) == 8 * count);
    for (size_t k = 0; k < 8 * count; k++)
        CHECK(bit_set_contains(part, k) == table[8 * from + k]);
    bit_set_free(part);
    size_t width = 8 * sizeof(bit_set_block);
    bit_set_block blocks[4] = {0};
    for (size_t k = 0; k < 4 * width; k++)
        blocks[k / width] |= (bit_set_block)(draw(3) == 0) << k % width;
    from = draw(LIMIT / width - 4);
    room = draw(5);
    CHECK(bit_set_put_blocks(set, from, blocks, room));
    for (size_t k = 0; k < room * width; k++)
        table[from * width + k] = blocks[k / width] >> k % width & 1;
}

/* Blocks that are lent, each of which is the one that is copied. */
static void lends(const bit_set *set, const bool *table) {
    size_t width = 8 * sizeof(bit_set_block), length = bit_set_length(set);
    bit_set_lent lent = BIT_SET_NOTHING_LENT;
    CHECK(lent.blocks && lent.count == 0);
    bit_set_lend_blocks(set, &lent);
    CHECK(lent.blocks && lent.count == length / width + (length % width != 0));
    for (size_t n = 0; n < lent.count * width; n++)
        CHECK((lent.blocks[n / width] >> n % width & 1) == (n < LIMIT && table[n]));
}

/* The call of this number on the first set, the second and the third. */
static int32_t merge(size_t call) {
    return call == 0   ? bit_set_union_changes(sets[0], sets[1])
           : call == 1 ? bit_set_intersection_changes(sets[0], sets[1])
           : call == 2 ? bit_set_difference_changes(sets[0], sets[1])
           : call == 3 ? bit_set_symmetric_difference_changes(sets[0], sets[1])
           : call == 4 ? bit_set_union_with_difference(sets[0], sets[1], sets[2])
           : call == 5 ? bit_set_union_with_intersection(sets[0], sets[1], sets[2])
                       : bit_set_become_difference(sets[0], sets[1], sets[2]);
}

static void merges(void) {
    size_t call = draw(7), counts[4] = {0};
    bool changed = false;
    for (size_t n = 0; n < LIMIT; n++) {
        bool a = tables[0][n], b = tables[1][n], c = tables[2][n];
        bool merged[] = {a || b, a && b, a && !b, a != b, a || (b && !c), a || (b && c), b && !c};
        for (size_t k = 0; k < 4; k++)
            counts[k] += merged[k];
        changed = changed || merged[call] != a;
        tables[0][n] = merged[call];
    }
    CHECK(bit_set_union_count(sets[0], sets[1]) == counts[0]);
    CHECK(bit_set_intersection_count(sets[0], sets[1]) == counts[1]);
    CHECK(bit_set_difference_count(sets[0], sets[1]) == counts[2]);
    CHECK(bit_set_symmetric_difference_count(sets[0], sets[1]) == counts[3]);
    CHECK(merge(call) == changed);
}

int main(int count, char **words) {
    size_t rounds = count > 1 ? strtoul(words[1], NULL, 10) : 5000;
    for (size_t k = 0; k < 3; k++)
        CHECK(bit_set_new(&sets[k]));
    for (size_t round = 0; round < rounds; round++) {
        size_t k = draw(3);
        single_numbers(sets[k], tables[k]);
        ends(sets[k], tables[k]);
        searches(sets[k], tables[k]);
        stretches(sets[k], tables[k]);
        if (draw(8) == 0)
            ranges(sets[k], tables[k]);
        if (draw(8) == 0)
            copies(sets[k], tables[k]);
        if (draw(8) == 0)
            shifts(sets[k], tables[k]);
        if (draw(8) == 0)
            lends(sets[k], tables[k]);
        if (draw(8) == 0)
            merges();
        if (draw(100) == 0) {
            bit_set_reset(sets[k]);
            memset(tables[k], 0, sizeof tables[k]);
        }
    }
    for (size_t k = 0; k < 3; k++)
        bit_set_free(sets[k]);
    return 0;
}
