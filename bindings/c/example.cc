// example.c in C++: the primes below 100 by the sieve of Eratosthenes, how many are not of the form 4n + 1, and all of them
// as bytes that other systems read; and the nodes that a node of a graph reaches.
#include "bit_roaring.hpp"
#include "bit_set.hpp"
#include <cstdio>

constexpr std::size_t LIMIT = 100;

static BitSet sieve() {
    BitSet primes;
    primes.insert_range(2, LIMIT);
    for (std::size_t prime : primes)
        for (std::size_t number = prime * prime; number < LIMIT; number += prime)
            primes.erase(number);
    return primes;
}

int main() {
    try {
        BitSet primes = sieve(), ones;
        for (std::size_t number = 1; number < LIMIT; number += 4)
            ones.insert(number);
        BitSet others = primes - ones;
        auto bytes = BitRoaring(primes).serialize();
        auto again = BitRoaring::deserialize(bytes.data(), bytes.size());
        BitMatrix graph(4, 4);
        graph.insert(0, 2);
        graph.insert(2, 1);
        graph.insert(1, 3);
        graph.close();
        BitSet reached = graph.row(0);
        std::printf("%zu:", primes.size());
        for (std::size_t prime : primes)
            std::printf(" %zu", prime);
        std::printf("\n%zu of them are not 4n + 1: subset %d, disjoint %d, compare %d\n", others.size(),
                    others.is_subset(primes), others.is_disjoint(primes), bit_set_compare(others.get(), primes.get()));
        std::printf("%zu bytes say that the greatest is %u\n", bytes.size(), *again.rbegin());
        std::printf("0 reaches");
        for (std::size_t node : reached)
            std::printf(" %zu", node);
        std::printf("\n");
    } catch (const std::bad_alloc &) {
        std::fprintf(stderr, "no memory\n");
        return 3;
    }
}
