/* The primes below 100 by the sieve of Eratosthenes, how many are not of the form 4n + 1, and all of them as bytes that
 * other systems read; and the nodes that a node of a graph reaches. */
#include "bit_roaring.h"
#include "bit_set.h"
#include <inttypes.h>
#include <stdio.h>

#define LIMIT 100

static bool sieve(bit_set *primes) {
    for (size_t number = 2; number < LIMIT; number++)
        if (bit_set_insert(primes, number) < 0)
            return false;
    for (size_t prime = 2; prime != SIZE_MAX; prime = bit_set_next(primes, prime + 1))
        for (size_t number = prime * prime; number < LIMIT; number += prime)
            bit_set_remove(primes, number);
    return true;
}

/* The closure of the graph whose edges lead from 0 to 2, from 2 to 1 and from 1 to 3. */
static bool close_edges(bit_matrix **graph) {
    if (!bit_matrix_new(graph, 4, 4))
        return false;
    bit_matrix_insert(*graph, 0, 2);
    bit_matrix_insert(*graph, 2, 1);
    bit_matrix_insert(*graph, 1, 3);
    bit_matrix_transitive_closure(*graph);
    return true;
}

/* Writes the set as bytes, and makes another of them. */
static bool read_again(bit_roaring **again, size_t *used, const bit_set *set) {
    bit_roaring *bitmap = NULL;
    uint8_t bytes[128];
    bool done = bit_set_to_roaring(&bitmap, set) == BIT_SET_YES
                && bit_roaring_serialize(bitmap, bytes, sizeof bytes) == BIT_ROARING_YES
                && bit_roaring_deserialize(again, bytes, sizeof bytes, used) == BIT_ROARING_YES;
    bit_roaring_free(bitmap);
    return done;
}

static void print(const bit_set *set) {
    size_t members[8], from = 0, count;
    while ((count = bit_set_copy_members(set, from, members, 8)) > 0) {
        for (size_t i = 0; i < count; i++)
            printf(" %zu", members[i]);
        from = members[count - 1] + 1;
    }
    printf("\n");
}

int main(void) {
    bit_set *primes = NULL, *others = NULL;
    bit_roaring *again = NULL;
    size_t used = 0;
    bit_matrix *graph = NULL;
    bool done = bit_set_new(&primes) && sieve(primes) && bit_set_clone(&others, primes) && read_again(&again, &used, primes)
                && close_edges(&graph);
    if (done) {
        for (size_t number = 1; number < LIMIT; number += 4)
            bit_set_remove(others, number);
        printf("%zu:", bit_set_count(primes));
        print(primes);
        printf("%zu of them are not 4n + 1: subset %d, disjoint %d, compare %d\n", bit_set_count(others),
               bit_set_is_subset(others, primes), bit_set_is_disjoint(others, primes), bit_set_compare(others, primes));
        printf("%zu bytes say that the greatest is %" PRIu64 "\n", used, bit_roaring_max(again));
        printf("0 reaches");
        BIT_MATRIX_FOR_EACH(node, graph, 0)
            printf(" %zu", node);
        printf("\n");
    }
    bit_matrix_free(graph);
    bit_roaring_free(again);
    bit_set_free(others);
    bit_set_free(primes);
    if (!done)
        fprintf(stderr, "no memory\n");
    return done ? 0 : 3;
}
