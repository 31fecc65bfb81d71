/* Writes what the library makes of sets of some shapes into the folder that is named: lists, blocks and runs, few and many. */
#include <stdbool.h>
#include <stdint.h>
#include <stdio.h>
#include <stdlib.h>

#include "bit_roaring.h"

static const char *folder;

static void must(bool holds) {
    if (!holds) {
        fprintf(stderr, "seeds: a call failed\n");
        exit(1);
    }
}

static void write_bytes(const char *name, const uint8_t *bytes, size_t size) {
    char path[4096];
    FILE *file;
    must(snprintf(path, sizeof path, "%s/%s", folder, name) < (int)sizeof path);
    file = fopen(path, "wb");
    must(file != NULL && fwrite(bytes, 1, size, file) == size && fclose(file) == 0);
}

static void write_set(const char *name, const bit_roaring *set) {
    size_t size = bit_roaring_serialized_size(set);
    uint8_t *bytes = malloc(size + 1);
    must(bytes != NULL && bit_roaring_serialize(set, bytes, size) == BIT_ROARING_YES);
    write_bytes(name, bytes, size);
    free(bytes);
}

/* A set of 64-bit numbers with so many bitmaps, of so many members each. */
static void write_bitmaps(const char *name, uint64_t bitmaps, uint64_t members) {
    uint8_t bytes[4096];
    size_t size = 0;
    bit_roaring64 *set = NULL;
    must(bit_roaring64_new(&set));
    for (uint64_t bitmap = 0; bitmap < bitmaps; bitmap++)
        for (uint64_t n = 0; n < members; n++)
            must(bit_roaring64_insert(set, (bitmap << 33) + n * 30000) >= 0);
    must(bit_roaring64_serialize(set, bytes, sizeof bytes, &size) == BIT_ROARING_YES);
    write_bytes(name, bytes, size);
    bit_roaring64_free(set);
}

/* In containers of `every` apart, members of `step` apart up to `past`. */
static void write_steps(const char *name, uint64_t keys, uint64_t every, uint64_t step, uint64_t past, bool runs) {
    bit_roaring *set = NULL;
    must(bit_roaring_new(&set));
    for (uint64_t key = 0; key < keys; key++) {
        uint64_t first = key * every << 16;
        if (step == 1)
            must(bit_roaring_insert_range(set, first, first + past) >= 0);
        else
            for (uint64_t n = 0; n < past; n += step)
                must(bit_roaring_insert(set, (uint32_t)(first + n)) >= 0);
    }
    must((runs ? bit_roaring_optimize(set) : bit_roaring_remove_runs(set)) >= 0);
    write_set(name, set);
    bit_roaring_free(set);
}

int main(int count, char **words) {
    if (count != 2)
        return 2;
    folder = words[1];
    write_steps("empty", 0, 1, 1, 0, false);
    write_steps("one", 1, 1, 1, 1, false);
    write_steps("list", 1, 1, 900, 65536, false);
    write_steps("lists", 20, 3000, 9000, 65536, false);
    write_steps("blocks", 2, 1, 2, 65536, false);
    write_steps("run", 1, 1, 1, 300, true);
    write_steps("three_runs", 3, 7, 1, 40000, true);
    write_steps("many_runs", 30, 2000, 1, 65536, true);
    write_steps("lists_as_runs", 9, 5, 30, 90, true);
    write_bitmaps("no_bitmaps", 0, 0);
    write_bitmaps("bitmap", 1, 40);
    write_bitmaps("bitmaps", 5, 9);
    return 0;
}
