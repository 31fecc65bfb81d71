// Sets of 32-bit numbers for C++17, and of 64-bit numbers, over bit_roaring.h: classes that own their sets and free them. If
// memory runs out, a call throws std::bad_alloc; bytes that are not those of a set throw std::invalid_argument, and a bit
// set with a member above UINT32_MAX throws std::out_of_range. Nothing has changed then, except that `optimize` and
// `remove_runs` may have converted some containers. If the compiler has no exceptions, these end the process. A call that
// has no method here is made as in C, with `get()`.
#ifndef BIT_ROARING_HPP
#define BIT_ROARING_HPP

#include "bit_roaring.h"
#include "bit_set.hpp"

#include <cstddef>
#include <cstdint>
#include <cstdlib>
#include <initializer_list>
#include <iterator>
#include <new>
#include <optional>
#include <stdexcept>
#include <utility>
#include <vector>

#ifdef __cpp_exceptions
#define BIT_ROARING_THROW(exception) throw exception
#else
#define BIT_ROARING_THROW(exception) std::abort()
#endif

class BitRoaring {
    bit_roaring *set_ = nullptr;

    explicit BitRoaring(bit_roaring *set) : set_(set) {}

    static void require(bool done) {
        if (!done)
            BIT_ROARING_THROW(std::bad_alloc());
    }

    // Whether the result of a call that fails only for memory is yes.
    static bool answer(std::int32_t answer) {
        require(answer >= 0);
        return answer == BIT_ROARING_YES;
    }

    static std::uint64_t count(std::int64_t count) {
        require(count >= 0);
        return static_cast<std::uint64_t>(count);
    }

    static std::optional<std::uint32_t> found(std::uint64_t member) {
        if (member == BIT_ROARING_NONE)
            return std::nullopt;
        return static_cast<std::uint32_t>(member);
    }

    template <typename Call> static BitRoaring made(Call call, const BitRoaring &a, const BitRoaring &b) {
        bit_roaring *set = nullptr;
        require(call(&set, a.set_, b.set_));
        return BitRoaring(set);
    }

public:
    // An iterator over the members in ascending order, from either end. It reads the set at each step, and the set may be
    // changed meanwhile. It gives each member by value.
    class const_iterator {
        const bit_roaring *set_ = nullptr;
        std::uint64_t member_ = BIT_ROARING_NONE;

    public:
        using iterator_category = std::bidirectional_iterator_tag;
        using value_type = std::uint32_t;
        using difference_type = std::ptrdiff_t;
        using pointer = const std::uint32_t *;
        using reference = std::uint32_t;

        const_iterator() = default;
        const_iterator(const bit_roaring *set, std::uint64_t member) : set_(set), member_(member) {}
        std::uint32_t operator*() const { return static_cast<std::uint32_t>(member_); }
        const_iterator &operator++() {
            member_ = bit_roaring_next(set_, member_ + 1);
            return *this;
        }
        const_iterator operator++(int) {
            const_iterator before = *this;
            ++*this;
            return before;
        }
        const_iterator &operator--() {
            member_ = bit_roaring_previous(set_, member_);
            return *this;
        }
        const_iterator operator--(int) {
            const_iterator before = *this;
            --*this;
            return before;
        }
        bool operator==(const const_iterator &other) const { return member_ == other.member_; }
        bool operator!=(const const_iterator &other) const { return member_ != other.member_; }
    };

    using iterator = const_iterator;
    using const_reverse_iterator = std::reverse_iterator<const_iterator>;
    using reverse_iterator = const_reverse_iterator;
    using value_type = std::uint32_t;

    BitRoaring() { require(bit_roaring_new(&set_)); }
    BitRoaring(std::initializer_list<std::uint32_t> members) : BitRoaring(members.begin(), members.end()) {}
    template <typename Iterator> BitRoaring(Iterator first, Iterator last) : BitRoaring() {
        for (; first != last; ++first)
            insert(*first);
    }
    // The set of the members of a bit set.
    explicit BitRoaring(const BitSet &bits) {
        std::int32_t made = bit_set_to_roaring(&set_, bits.get());
        if (made == BIT_SET_NO_ELEMENT)
            BIT_ROARING_THROW(std::out_of_range("a member is above UINT32_MAX"));
        require(made == BIT_SET_YES);
    }
    BitRoaring(const BitRoaring &other) { require(bit_roaring_clone(&set_, other.set_)); }
    // A moved-from object may only be assigned to or destroyed.
    BitRoaring(BitRoaring &&other) noexcept : set_(std::exchange(other.set_, nullptr)) {}
    BitRoaring &operator=(BitRoaring other) noexcept {
        std::swap(set_, other.set_);
        return *this;
    }
    ~BitRoaring() { bit_roaring_free(set_); }

    bit_roaring *get() { return set_; }
    const bit_roaring *get() const { return set_; }

    const_iterator begin() const { return {set_, bit_roaring_min(set_)}; }
    const_iterator end() const { return {set_, BIT_ROARING_NONE}; }
    // At the least member that is `from` or above.
    const_iterator lower_bound(std::uint32_t from) const { return {set_, bit_roaring_next(set_, from)}; }
    const_reverse_iterator rbegin() const { return const_reverse_iterator(end()); }
    const_reverse_iterator rend() const { return const_reverse_iterator(begin()); }

    // Each returns whether that changed the set. `push` inserts only a number that is above each member.
    bool insert(std::uint32_t value) { return answer(bit_roaring_insert(set_, value)); }
    bool push(std::uint32_t value) { return answer(bit_roaring_push(set_, value)); }
    bool erase(std::uint32_t value) { return answer(bit_roaring_remove(set_, value)); }

    // Each returns how many numbers of the range were new, or present.
    std::uint64_t insert_range(std::uint64_t start, std::uint64_t end) {
        return count(bit_roaring_insert_range(set_, start, end));
    }
    std::uint64_t erase_range(std::uint64_t start, std::uint64_t end) {
        return count(bit_roaring_remove_range(set_, start, end));
    }
    // Erases each member in the range, and inserts each other number of it.
    void flip_range(std::uint64_t start, std::uint64_t end) { require(bit_roaring_flip(set_, start, end)); }
    void clear() { bit_roaring_clear(set_); }

    // Each member plus `offset`, but for those that would leave 0 to 2^32 - 1.
    BitRoaring add_offset(std::int64_t offset) const {
        bit_roaring *set = nullptr;
        require(bit_roaring_add_offset(&set, set_, offset));
        return BitRoaring(set);
    }

    // Convert containers: to the form with the fewest bytes, or from runs. Each returns whether one changed.
    bool optimize() { return answer(bit_roaring_optimize(set_)); }
    bool remove_runs() { return answer(bit_roaring_remove_runs(set_)); }
    // Gives back the memory that is held and not used.
    void shrink_to_fit() { bit_roaring_shrink_to_fit(set_); }

    bool contains(std::uint32_t value) const { return bit_roaring_contains(set_, value); }
    bool contains_range(std::uint64_t start, std::uint64_t end) const {
        return bit_roaring_contains_range(set_, start, end);
    }
    bool intersects_range(std::uint64_t start, std::uint64_t end) const {
        return bit_roaring_intersects_range(set_, start, end);
    }
    std::uint64_t range_cardinality(std::uint64_t start, std::uint64_t end) const {
        return bit_roaring_range_cardinality(set_, start, end);
    }
    std::uint64_t size() const { return bit_roaring_len(set_); }
    bool empty() const { return bit_roaring_is_empty(set_); }
    std::optional<std::uint32_t> min() const { return found(bit_roaring_min(set_)); }
    std::optional<std::uint32_t> max() const { return found(bit_roaring_max(set_)); }
    // How many members are at most the value; and the member with exactly `n` others below it.
    std::uint64_t rank(std::uint32_t value) const { return bit_roaring_rank(set_, value); }
    std::optional<std::uint32_t> select(std::uint32_t n) const { return found(bit_roaring_select(set_, n)); }
    bool is_subset(const BitRoaring &other) const { return bit_roaring_is_subset(set_, other.set_); }
    bool is_disjoint(const BitRoaring &other) const { return bit_roaring_is_disjoint(set_, other.set_); }

    // The bytes of the set in the portable form; the set that the first bytes represent, and in `used`, if it is given, how
    // many bytes that are. The pointer must not be null, even if there are no bytes.
    std::vector<std::uint8_t> serialize() const {
        std::vector<std::uint8_t> bytes(bit_roaring_serialized_size(set_));
        require(bit_roaring_serialize(set_, bytes.data(), bytes.size()) == BIT_ROARING_YES);
        return bytes;
    }
    static BitRoaring deserialize(const std::uint8_t *bytes, std::size_t count, std::size_t *used = nullptr) {
        bit_roaring *set = nullptr;
        std::size_t taken = 0;
        std::int32_t made = bit_roaring_deserialize(&set, bytes, count, &taken);
        if (made < BIT_ROARING_NO_MEMORY)
            BIT_ROARING_THROW(std::invalid_argument("the bytes are not those of a set"));
        require(made == BIT_ROARING_YES);
        if (used != nullptr)
            *used = taken;
        return BitRoaring(set);
    }

    // A bit set of the same members.
    BitSet to_bit_set() const {
        bit_set *bits = nullptr;
        require(bit_set_from_roaring(&bits, set_));
        return BitSet(bits);
    }

    // A call on two sets in place must have two different ones: for a set and itself the result is that set, or the empty
    // one.
    BitRoaring &operator|=(const BitRoaring &other) {
        if (set_ != other.set_)
            answer(bit_roaring_union_with(set_, other.set_));
        return *this;
    }
    BitRoaring &operator&=(const BitRoaring &other) {
        if (set_ != other.set_)
            answer(bit_roaring_intersect_with(set_, other.set_));
        return *this;
    }
    BitRoaring &operator-=(const BitRoaring &other) {
        if (set_ == other.set_)
            clear();
        else
            answer(bit_roaring_difference_with(set_, other.set_));
        return *this;
    }
    BitRoaring &operator^=(const BitRoaring &other) {
        if (set_ == other.set_)
            clear();
        else
            answer(bit_roaring_symmetric_difference_with(set_, other.set_));
        return *this;
    }
    friend BitRoaring operator|(const BitRoaring &a, const BitRoaring &b) { return made(bit_roaring_union, a, b); }
    friend BitRoaring operator&(const BitRoaring &a, const BitRoaring &b) { return made(bit_roaring_intersection, a, b); }
    friend BitRoaring operator-(const BitRoaring &a, const BitRoaring &b) { return made(bit_roaring_difference, a, b); }
    friend BitRoaring operator^(const BitRoaring &a, const BitRoaring &b) {
        return made(bit_roaring_symmetric_difference, a, b);
    }

    friend bool operator==(const BitRoaring &a, const BitRoaring &b) { return bit_roaring_equals(a.set_, b.set_); }
    friend bool operator!=(const BitRoaring &a, const BitRoaring &b) { return !(a == b); }
    // The order of the ascending lists of members.
    friend bool operator<(const BitRoaring &a, const BitRoaring &b) { return bit_roaring_compare(a.set_, b.set_) < 0; }
};

class BitRoaring64 {
    bit_roaring64 *set_ = nullptr;

    explicit BitRoaring64(bit_roaring64 *set) : set_(set) {}

    static void require(bool done) {
        if (!done)
            BIT_ROARING_THROW(std::bad_alloc());
    }

    // Whether the result of a call that fails only for memory is yes.
    static bool answer(std::int32_t answer) {
        require(answer >= 0);
        return answer == BIT_ROARING_YES;
    }

    // What a call that finds a member, and returns whether there is one, writes.
    template <typename Call> static std::optional<std::uint64_t> found(Call call) {
        std::uint64_t member = 0;
        if (!call(&member))
            return std::nullopt;
        return member;
    }

    template <typename Call> static BitRoaring64 made(Call call, const BitRoaring64 &a, const BitRoaring64 &b) {
        bit_roaring64 *set = nullptr;
        require(call(&set, a.set_, b.set_));
        return BitRoaring64(set);
    }

public:
    // An iterator over the members in ascending order, from either end. It reads the set at each step, and the set may be
    // changed meanwhile. It gives each member by value.
    class const_iterator {
        const bit_roaring64 *set_ = nullptr;
        std::uint64_t member_ = 0;
        // Whether it is at a member, and not past the last.
        bool is_one_ = false;

    public:
        using iterator_category = std::bidirectional_iterator_tag;
        using value_type = std::uint64_t;
        using difference_type = std::ptrdiff_t;
        using pointer = const std::uint64_t *;
        using reference = std::uint64_t;

        const_iterator() = default;
        // Past the last member.
        explicit const_iterator(const bit_roaring64 *set) : set_(set) {}
        // At the least member that is `from` or above.
        const_iterator(const bit_roaring64 *set, std::uint64_t from)
            : set_(set), is_one_(bit_roaring64_next(set, from, &member_)) {}
        std::uint64_t operator*() const { return member_; }
        const_iterator &operator++() {
            is_one_ = member_ < UINT64_MAX && bit_roaring64_next(set_, member_ + 1, &member_);
            return *this;
        }
        const_iterator operator++(int) {
            const_iterator before = *this;
            ++*this;
            return before;
        }
        const_iterator &operator--() {
            is_one_ = bit_roaring64_previous(set_, is_one_ ? member_ - 1 : UINT64_MAX, &member_);
            return *this;
        }
        const_iterator operator--(int) {
            const_iterator before = *this;
            --*this;
            return before;
        }
        bool operator==(const const_iterator &other) const {
            return is_one_ == other.is_one_ && (!is_one_ || member_ == other.member_);
        }
        bool operator!=(const const_iterator &other) const { return !(*this == other); }
    };

    using iterator = const_iterator;
    using const_reverse_iterator = std::reverse_iterator<const_iterator>;
    using reverse_iterator = const_reverse_iterator;
    using value_type = std::uint64_t;

    BitRoaring64() { require(bit_roaring64_new(&set_)); }
    BitRoaring64(std::initializer_list<std::uint64_t> members) : BitRoaring64(members.begin(), members.end()) {}
    template <typename Iterator> BitRoaring64(Iterator first, Iterator last) : BitRoaring64() {
        for (; first != last; ++first)
            insert(*first);
    }
    BitRoaring64(const BitRoaring64 &other) { require(bit_roaring64_clone(&set_, other.set_)); }
    // A moved-from object may only be assigned to or destroyed.
    BitRoaring64(BitRoaring64 &&other) noexcept : set_(std::exchange(other.set_, nullptr)) {}
    BitRoaring64 &operator=(BitRoaring64 other) noexcept {
        std::swap(set_, other.set_);
        return *this;
    }
    ~BitRoaring64() { bit_roaring64_free(set_); }

    bit_roaring64 *get() { return set_; }
    const bit_roaring64 *get() const { return set_; }

    const_iterator begin() const { return {set_, 0}; }
    const_iterator end() const { return const_iterator(set_); }
    // At the least member that is `from` or above.
    const_iterator lower_bound(std::uint64_t from) const { return {set_, from}; }
    const_reverse_iterator rbegin() const { return const_reverse_iterator(end()); }
    const_reverse_iterator rend() const { return const_reverse_iterator(begin()); }

    // Each returns whether that changed the set. `push` inserts only a number that is above each member.
    bool insert(std::uint64_t value) { return answer(bit_roaring64_insert(set_, value)); }
    bool push(std::uint64_t value) { return answer(bit_roaring64_push(set_, value)); }
    bool erase(std::uint64_t value) { return answer(bit_roaring64_remove(set_, value)); }
    // A range never has UINT64_MAX.
    void insert_range(std::uint64_t start, std::uint64_t end) { require(bit_roaring64_insert_range(set_, start, end)); }
    void erase_range(std::uint64_t start, std::uint64_t end) { require(bit_roaring64_remove_range(set_, start, end)); }
    // Erases each member in the range, and inserts each other number of it.
    void flip_range(std::uint64_t start, std::uint64_t end) { require(bit_roaring64_flip(set_, start, end)); }
    void clear() { bit_roaring64_clear(set_); }

    // Convert containers: to the form with the fewest bytes, or from runs. Each returns whether one changed.
    bool optimize() { return answer(bit_roaring64_optimize(set_)); }
    bool remove_runs() { return answer(bit_roaring64_remove_runs(set_)); }
    // Gives back the memory that is held and not used.
    void shrink_to_fit() { bit_roaring64_shrink_to_fit(set_); }

    bool contains(std::uint64_t value) const { return bit_roaring64_contains(set_, value); }
    bool contains_range(std::uint64_t start, std::uint64_t end) const {
        return bit_roaring64_contains_range(set_, start, end);
    }
    std::uint64_t range_cardinality(std::uint64_t start, std::uint64_t end) const {
        return bit_roaring64_range_cardinality(set_, start, end);
    }
    // UINT64_MAX for the set of all 2^64 numbers.
    std::uint64_t size() const { return bit_roaring64_len(set_); }
    bool empty() const { return bit_roaring64_is_empty(set_); }
    std::optional<std::uint64_t> min() const {
        return found([this](std::uint64_t *member) { return bit_roaring64_min(set_, member); });
    }
    std::optional<std::uint64_t> max() const {
        return found([this](std::uint64_t *member) { return bit_roaring64_max(set_, member); });
    }
    // How many members are at most the value; and the member with exactly `n` others below it.
    std::uint64_t rank(std::uint64_t value) const { return bit_roaring64_rank(set_, value); }
    std::optional<std::uint64_t> select(std::uint64_t n) const {
        return found([this, n](std::uint64_t *member) { return bit_roaring64_select(set_, n, member); });
    }
    bool is_subset(const BitRoaring64 &other) const { return bit_roaring64_is_subset(set_, other.set_); }
    bool is_disjoint(const BitRoaring64 &other) const { return bit_roaring64_is_disjoint(set_, other.set_); }

    // The bytes of the set in the portable form for 64 bits; the set that the first bytes represent, and in `used`, if it is
    // given, how many bytes that are. The pointer must not be null, even if there are no bytes.
    std::vector<std::uint8_t> serialize() const {
        std::vector<std::uint8_t> bytes(bit_roaring64_serialized_size(set_));
        std::size_t size = 0;
        require(bit_roaring64_serialize(set_, bytes.data(), bytes.size(), &size) == BIT_ROARING_YES);
        bytes.resize(size);
        return bytes;
    }
    static BitRoaring64 deserialize(const std::uint8_t *bytes, std::size_t count, std::size_t *used = nullptr) {
        bit_roaring64 *set = nullptr;
        std::size_t taken = 0;
        std::int32_t made = bit_roaring64_deserialize(&set, bytes, count, &taken);
        if (made < BIT_ROARING_NO_MEMORY)
            BIT_ROARING_THROW(std::invalid_argument("the bytes are not those of a set"));
        require(made == BIT_ROARING_YES);
        if (used != nullptr)
            *used = taken;
        return BitRoaring64(set);
    }

    // A call on two sets in place must have two different ones: for a set and itself the result is that set, or the empty
    // one.
    BitRoaring64 &operator|=(const BitRoaring64 &other) {
        if (set_ != other.set_)
            answer(bit_roaring64_union_with(set_, other.set_));
        return *this;
    }
    BitRoaring64 &operator&=(const BitRoaring64 &other) {
        if (set_ != other.set_)
            answer(bit_roaring64_intersect_with(set_, other.set_));
        return *this;
    }
    BitRoaring64 &operator-=(const BitRoaring64 &other) {
        if (set_ == other.set_)
            clear();
        else
            answer(bit_roaring64_difference_with(set_, other.set_));
        return *this;
    }
    BitRoaring64 &operator^=(const BitRoaring64 &other) {
        if (set_ == other.set_)
            clear();
        else
            answer(bit_roaring64_symmetric_difference_with(set_, other.set_));
        return *this;
    }
    friend BitRoaring64 operator|(const BitRoaring64 &a, const BitRoaring64 &b) { return made(bit_roaring64_union, a, b); }
    friend BitRoaring64 operator&(const BitRoaring64 &a, const BitRoaring64 &b) {
        return made(bit_roaring64_intersection, a, b);
    }
    friend BitRoaring64 operator-(const BitRoaring64 &a, const BitRoaring64 &b) {
        return made(bit_roaring64_difference, a, b);
    }
    friend BitRoaring64 operator^(const BitRoaring64 &a, const BitRoaring64 &b) {
        return made(bit_roaring64_symmetric_difference, a, b);
    }

    friend bool operator==(const BitRoaring64 &a, const BitRoaring64 &b) { return bit_roaring64_equals(a.set_, b.set_); }
    friend bool operator!=(const BitRoaring64 &a, const BitRoaring64 &b) { return !(a == b); }
    // The order of the ascending lists of members.
    friend bool operator<(const BitRoaring64 &a, const BitRoaring64 &b) {
        return bit_roaring64_compare(a.set_, b.set_) < 0;
    }
};

#undef BIT_ROARING_THROW

#endif
