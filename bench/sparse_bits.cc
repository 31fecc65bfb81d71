// LLVM's sparse bit vectors, for `bench/run sparse`: the calls that its rows need, by C names.
#include "llvm/ADT/SparseBitVector.h"
#include <cstddef>

using Set = llvm::SparseBitVector<>;

extern "C" {
Set *sparse_bits_new() { return new Set; }

Set *sparse_bits_copy(const Set *set) { return new Set(*set); }

void sparse_bits_free(Set *set) { delete set; }

// In ascending order this takes constant time.
void sparse_bits_insert(Set *set, unsigned number) { set->set(number); }

void sparse_bits_union(Set *set, const Set *other) { *set |= *other; }

void sparse_bits_intersection(Set *set, const Set *other) { *set &= *other; }

void sparse_bits_difference(Set *set, const Set *other) { set->intersectWithComplement(*other); }

bool sparse_bits_equal(const Set *set, const Set *other) { return *set == *other; }

void sparse_bits_clear(Set *set) { set->clear(); }

size_t sparse_bits_count(const Set *set) { return set->count(); }

size_t sparse_bits_sum(const Set *set) {
    size_t sum = 0;
    for (unsigned number : *set) sum += number;
    return sum;
}

// The library has no count of a merge: a set is made and counted.
size_t sparse_bits_count_of_both(const Set *set, const Set *other) { return (*set & *other).count(); }

size_t sparse_bits_count_of_rest(const Set *set, const Set *other) { return (*set - *other).count(); }
}
