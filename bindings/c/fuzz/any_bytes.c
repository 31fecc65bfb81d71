/* What libFuzzer calls with any bytes: each call that reads bytes of others is given them, and what it makes of them is read
 * whole, written and read back. The bytes lie before a page that no process may read, and so does what is written, since
 * the sanitizer does not see what the library itself reads and writes. */
#include <stdbool.h>
#include <stddef.h>
#include <stdint.h>
#include <stdio.h>
#include <stdlib.h>
#include <string.h>
#include <sys/mman.h>

#include "bit_roaring.h"
#include "bit_set.h"

#define PAGE ((size_t)4096)
/* How many members are read of each set. */
#define MEMBERS 500

/* Ends the process where this does not hold, and writes where that is. */
#define MUST(holds)                                                                                                    \
    do {                                                                                                               \
        if (!(holds)) {                                                                                                \
            fprintf(stderr, "%s:%d: this does not hold: %s\n", __FILE__, __LINE__, #holds);                            \
            abort();                                                                                                   \
        }                                                                                                              \
    } while (0)

/* Memory whose end is that of a page, before one that is closed. */
typedef struct guarded {
    char *pages;
    size_t whole;
    uint8_t *bytes;
} guarded;

static guarded guard(size_t size) {
    guarded made;
    made.whole = (size + 2 * PAGE - 1) / PAGE * PAGE + PAGE;
    made.pages = mmap(NULL, made.whole, PROT_READ | PROT_WRITE, MAP_PRIVATE | MAP_ANONYMOUS, -1, 0);
    MUST(made.pages != MAP_FAILED);
    MUST(mprotect(made.pages + made.whole - PAGE, PAGE, PROT_NONE) == 0);
    made.bytes = (uint8_t *)made.pages + made.whole - PAGE - size;
    return made;
}

static void let_go(guarded it) { MUST(munmap(it.pages, it.whole) == 0); }

/* The first members ascend, are members, and have as many below them as were read before. */
static void read_members(const bit_roaring *set) {
    guarded room = guard(MEMBERS * sizeof(uint32_t));
    uint32_t *members = (uint32_t *)(void *)room.bytes;
    uint64_t len = bit_roaring_len(set);
    size_t count = bit_roaring_copy_members(set, 0, members, MEMBERS);
    MUST(count == (len < MEMBERS ? len : MEMBERS) && bit_roaring_is_empty(set) == (len == 0));
    for (size_t k = 0; k < count; k++) {
        MUST(k == 0 || members[k - 1] < members[k]);
        MUST(bit_roaring_contains(set, members[k]) && bit_roaring_next(set, members[k]) == members[k]);
    }
    if (count > 0) {
        uint32_t last = members[count - 1];
        MUST(bit_roaring_rank(set, last) == count && bit_roaring_select(set, (uint32_t)count - 1) == last);
        MUST(bit_roaring_min(set) == members[0] && bit_roaring_range_cardinality(set, 0, (uint64_t)last + 1) == count);
    }
    MUST(bit_roaring_copy_members_back(set, UINT64_MAX, members, MEMBERS) == count);
    MUST(count == 0 || members[0] == bit_roaring_max(set));
    let_go(room);
}

/* Written and read back it is the same, in whatever forms. */
static void write_and_read(const bit_roaring *set) {
    size_t size = bit_roaring_serialized_size(set), used = 0;
    guarded room = guard(size);
    bit_roaring *again = NULL;
    MUST(size == 0 || bit_roaring_serialize(set, room.bytes, size - 1) == BIT_ROARING_NO);
    MUST(bit_roaring_serialize(set, room.bytes, size) == BIT_ROARING_YES);
    MUST(bit_roaring_deserialize(&again, room.bytes, size, &used) == BIT_ROARING_YES && used == size);
    MUST(bit_roaring_equals(set, again) && bit_roaring_hash(set) == bit_roaring_hash(again));
    bit_roaring_free(again);
    let_go(room);
}

static void change(bit_roaring *set) {
    bit_roaring *other = NULL, *merged = NULL;
    bit_roaring_kinds kinds;
    MUST(bit_roaring_clone(&other, set));
    MUST(bit_roaring_optimize(other) >= 0 && bit_roaring_equals(set, other));
    write_and_read(other);
    MUST(bit_roaring_remove_runs(other) >= 0 && bit_roaring_equals(set, other));
    bit_roaring_statistics(other, &kinds);
    MUST(kinds.runs.containers == 0 && kinds.lists.members + kinds.blocks.members == bit_roaring_len(set));
    write_and_read(other);
    MUST(bit_roaring_union(&merged, set, other) && bit_roaring_equals(merged, set));
    MUST(bit_roaring_difference_with(merged, other) >= 0 && bit_roaring_is_empty(merged));
    bit_roaring_free(merged);
    bit_roaring_free(other);
}

static void read_roaring(const uint8_t *bytes, size_t size) {
    bit_roaring *set = NULL;
    size_t used = 77;
    int32_t answer = bit_roaring_deserialize(&set, bytes, size, &used);
    if (answer != BIT_ROARING_YES) {
        MUST(set == NULL && used == 77 && answer >= BIT_ROARING_BAD_RUNS && answer <= BIT_ROARING_SHORT);
        return;
    }
    MUST(set != NULL && used <= size);
    read_members(set);
    write_and_read(set);
    change(set);
    bit_roaring_free(set);
}

/* The same of a set of 64-bit numbers. */
static void read_members64(const bit_roaring64 *set) {
    guarded room = guard(MEMBERS * sizeof(uint64_t));
    uint64_t *members = (uint64_t *)(void *)room.bytes, len = bit_roaring64_len(set), member = 0;
    size_t count = bit_roaring64_copy_members(set, 0, members, MEMBERS);
    MUST(count == (len < MEMBERS ? len : MEMBERS) && bit_roaring64_is_empty(set) == (len == 0));
    for (size_t k = 0; k < count; k++) {
        MUST(k == 0 || members[k - 1] < members[k]);
        MUST(bit_roaring64_contains(set, members[k]));
        MUST(bit_roaring64_next(set, members[k], &member) && member == members[k]);
    }
    if (count > 0) {
        uint64_t last = members[count - 1];
        MUST(bit_roaring64_rank(set, last) == count);
        MUST(bit_roaring64_select(set, count - 1, &member) && member == last);
        MUST(bit_roaring64_min(set, &member) && member == members[0]);
    }
    MUST(bit_roaring64_copy_members_back(set, UINT64_MAX, members, MEMBERS) == count);
    MUST(count == 0 || (bit_roaring64_max(set, &member) && member == members[0]));
    let_go(room);
}

static void write_and_read64(const bit_roaring64 *set) {
    size_t size = 0, used = 0;
    guarded room = guard(0);
    bit_roaring64 *again = NULL;
    MUST(bit_roaring64_serialize(set, room.bytes, 0, &size) == BIT_ROARING_NO);
    let_go(room);
    room = guard(size);
    MUST(bit_roaring64_serialize(set, room.bytes, size, &size) == BIT_ROARING_YES);
    MUST(bit_roaring64_deserialize(&again, room.bytes, size, &used) == BIT_ROARING_YES && used == size);
    MUST(bit_roaring64_equals(set, again) && bit_roaring64_hash(set) == bit_roaring64_hash(again));
    bit_roaring64_free(again);
    let_go(room);
}

static void read_roaring64(const uint8_t *bytes, size_t size) {
    bit_roaring64 *set = NULL, *other = NULL;
    size_t used = 77;
    int32_t answer = bit_roaring64_deserialize(&set, bytes, size, &used);
    if (answer != BIT_ROARING_YES) {
        MUST(set == NULL && used == 77 && answer >= BIT_ROARING64_EMPTY_BITMAP && answer <= BIT_ROARING_SHORT);
        return;
    }
    MUST(set != NULL && used <= size);
    read_members64(set);
    write_and_read64(set);
    MUST(bit_roaring64_union(&other, set, set) && bit_roaring64_equals(set, other));
    write_and_read64(other);
    bit_roaring64_free(other);
    bit_roaring64_free(set);
}

static void read_bits(const uint8_t *bytes, size_t size) {
    bit_set *set = NULL, *other = NULL;
    bit_roaring *few = NULL;
    guarded room = guard(size);
    MUST(bit_set_from_bytes(&set, bytes, size) && bit_set_from_bytes_lsb(&other, bytes, size));
    MUST(bit_set_count(set) == bit_set_count(other));
    MUST(bit_set_copy_bytes(set, 0, room.bytes, size) <= size);
    MUST(bit_set_copy_bytes_lsb(other, 0, room.bytes, size) <= size && memcmp(room.bytes, bytes, size) == 0);
    MUST(bit_set_to_roaring(&few, set) == BIT_ROARING_YES && bit_roaring_len(few) == bit_set_count(set));
    read_members(few);
    write_and_read(few);
    bit_roaring_free(few);
    bit_set_free(other);
    bit_set_free(set);
    let_go(room);
}

int LLVMFuzzerTestOneInput(const uint8_t *data, size_t size) {
    guarded given = guard(size);
    memcpy(given.bytes, data, size);
    read_roaring(given.bytes, size);
    read_roaring64(given.bytes, size);
    read_bits(given.bytes, size);
    MUST(memcmp(given.bytes, data, size) == 0);
    let_go(given);
    return 0;
}
