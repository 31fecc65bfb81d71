// Calls of the classes BitRoaring and BitRoaring64, each compared with what std::set or the C header says. Ends with status
// 1 at the first difference, and writes where that is.
#include "bit_roaring.hpp"
#include "c_draws.h"

#include <algorithm>
#include <set>

using Numbers = std::set<std::uint32_t>;

static bool same(const BitRoaring &set, const Numbers &numbers) {
    return std::equal(set.begin(), set.end(), numbers.begin(), numbers.end())
           && std::equal(set.rbegin(), set.rend(), numbers.rbegin(), numbers.rend());
}

template <typename Exception, typename Call> static bool throws(Call call) {
    try {
        call();
    } catch (const Exception &) {
        return true;
    }
    return false;
}

static void single_numbers() {
    BitRoaring set;
    Numbers numbers;
    for (int k = 0; k < 3000; k++) {
        auto number = static_cast<std::uint32_t>(draw(4) == 0 ? 0xffffffff - draw(9) : draw(9000));
        if (draw(3) > 0)
            CHECK(set.insert(number) == numbers.insert(number).second);
        else
            CHECK(set.erase(number) == (numbers.erase(number) > 0));
        CHECK(set.contains(number) == (numbers.count(number) > 0));
    }
    CHECK(same(set, numbers) && set.size() == numbers.size() && !set.empty());
    CHECK(set.min() == *numbers.begin() && set.max() == *numbers.rbegin());
    CHECK(set.rank(8999) == static_cast<std::uint64_t>(std::distance(numbers.begin(), numbers.upper_bound(8999))));
    CHECK(set.select(0) == set.min() && set.select(static_cast<std::uint32_t>(set.size())) == std::nullopt);
}

static void operators() {
    BitRoaring a{1, 2, 70000}, b{2, 3};
    CHECK(same(a | b, {1, 2, 3, 70000}) && same(a & b, {2}) && same(a - b, {1, 70000}) && same(a ^ b, {1, 3, 70000}));
    BitRoaring c = a;
    CHECK(same(c |= b, {1, 2, 3, 70000}) && same(c -= b, {1, 70000}) && same(c ^= a, {2}) && same(c &= b, {2}));
    CHECK(same(c |= c, {2}) && same(c &= c, {2}) && same(a ^= a, {}) && same(b -= b, {}));
    CHECK(a == b && c != a && a < c && a.empty() && b.max() == std::nullopt && a.is_subset(c) && a.is_disjoint(c));
}

static void ranges_and_forms() {
    BitRoaring set;
    CHECK(set.insert_range(10, 100000) == 99990 && set.erase_range(20, 30) == 10 && set.range_cardinality(0, 40) == 20);
    CHECK(set.contains_range(30, 100000) && !set.contains_range(29, 40) && set.push(100000) && !set.push(100000));
    BitRoaring same_set = set;
    // Whether a change left runs is not said.
    set.optimize();
    CHECK(set.remove_runs() && set == same_set && set.optimize() && !set.optimize());
    set.shrink_to_fit();
    CHECK(set == same_set);
    set.clear();
    CHECK(set.empty());
}

static void bytes_and_bits() {
    BitRoaring set{5, 6, 4000000000};
    CHECK(*set.lower_bound(6) == 6 && *set.lower_bound(7) == 4000000000 && set.lower_bound(4000000001) == set.end());
    std::vector<std::uint8_t> bytes = set.serialize();
    std::size_t used = 0, size = bytes.size();
    bytes.push_back(7);
    CHECK(BitRoaring::deserialize(bytes.data(), bytes.size(), &used) == set && used == size);
    CHECK(throws<std::invalid_argument>([&] { BitRoaring::deserialize(bytes.data(), size - 1); }));
    BitSet bits = set.to_bit_set();
    CHECK(BitRoaring(bits) == set && bits.size() == 3);
    bits.insert(std::size_t{1} << 32);
    CHECK(throws<std::out_of_range>([&] { BitRoaring again(bits); }));
}

using Numbers64 = std::set<std::uint64_t>;

static bool same(const BitRoaring64 &set, const Numbers64 &numbers) {
    return std::equal(set.begin(), set.end(), numbers.begin(), numbers.end())
           && std::equal(set.rbegin(), set.rend(), numbers.rbegin(), numbers.rend());
}

static void sets_of_64() {
    BitRoaring64 set;
    Numbers64 numbers;
    for (int k = 0; k < 3000; k++) {
        std::uint64_t number = draw(3) == 0 ? UINT64_MAX - draw(9) : (std::uint64_t{draw(3)} << 32) + draw(3000);
        if (draw(3) > 0)
            CHECK(set.insert(number) == numbers.insert(number).second);
        else
            CHECK(set.erase(number) == (numbers.erase(number) > 0));
        CHECK(set.contains(number) == (numbers.count(number) > 0));
    }
    CHECK(same(set, numbers) && set.size() == numbers.size() && !set.empty());
    CHECK(set.min() == *numbers.begin() && set.max() == *numbers.rbegin());
    CHECK(set.rank(5000) == static_cast<std::uint64_t>(std::distance(numbers.begin(), numbers.upper_bound(5000))));
    CHECK(set.select(0) == set.min() && set.select(set.size()) == std::nullopt);
    CHECK(*set.lower_bound(5000) == *numbers.lower_bound(5000));
    constexpr std::uint64_t far = 1099511627776;
    BitRoaring64 a{1, 2, UINT64_MAX}, b{2, far};
    CHECK(same(a | b, {1, 2, far, UINT64_MAX}) && same(a & b, {2}) && same(a - b, {1, UINT64_MAX}));
    BitRoaring64 c = a;
    CHECK(same(c ^= b, {1, far, UINT64_MAX}) && same(c -= b, {1, UINT64_MAX}) && same(c &= a, {1, UINT64_MAX}));
    CHECK(same(c |= b, {1, 2, far, UINT64_MAX}) && same(c &= c, {1, 2, far, UINT64_MAX}));
    CHECK(c.is_subset(a | b) && !c.is_disjoint(a) && c != a && c == (b | a) && a < b && same(c ^= c, {}));
    CHECK(c.lower_bound(0) == c.end());
    std::vector<std::uint8_t> bytes = set.serialize();
    std::size_t used = 0, size = bytes.size();
    bytes.push_back(7);
    CHECK(BitRoaring64::deserialize(bytes.data(), bytes.size(), &used) == set && used == size);
    CHECK(throws<std::invalid_argument>([&] { BitRoaring64::deserialize(bytes.data(), size - 1); }));
    c.clear();
    CHECK(c.empty() && c.max() == std::nullopt && c.push(far) && !c.push(far) && c.push(far + 1));
    CHECK(c.range_cardinality(0, far + 1) == 1 && c.contains_range(far, far + 2) && !c.contains_range(far, far + 3));
    c.insert_range(far - 2, far + 1);
    CHECK(same(c, {far - 2, far - 1, far, far + 1}));
    c.erase_range(0, far);
    CHECK(same(c, {far, far + 1}));
    c.flip_range(far + 1, far + 3);
    CHECK(same(c, {far, far + 2}));
    c.insert_range(5, 100000);
    BitRoaring64 same_set = c;
    // Whether a change left runs is not said.
    c.optimize();
    CHECK(c.serialize().size() < 100 && c.remove_runs() && c == same_set && c.optimize() && !c.optimize());
    c.shrink_to_fit();
    CHECK(c == same_set && BitRoaring64().serialize().size() == 8);
}

int main() {
    single_numbers();
    operators();
    ranges_and_forms();
    bytes_and_bits();
    sets_of_64();
}
