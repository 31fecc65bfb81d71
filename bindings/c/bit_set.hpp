// Sets of whole numbers and matrices of bits for C++17, over bit_set.h: classes that own their set or matrix and free it.
// If memory runs out, a call throws std::bad_alloc, and one that would insert SIZE_MAX throws std::out_of_range; nothing
// has changed then. If the compiler has no exceptions, both end the process. A call that has no method here is made as in
// C, with `get()`.
#ifndef BIT_SET_HPP
#define BIT_SET_HPP

#include "bit_set.h"

#include <cstddef>
#include <cstdint>
#include <cstdlib>
#include <initializer_list>
#include <iterator>
#include <new>
#include <stdexcept>
#include <utility>

#ifdef __cpp_exceptions
#define BIT_SET_THROW(exception) throw exception
#else
#define BIT_SET_THROW(exception) std::abort()
#endif

class BitMatrix;
class BitRoaring;

class BitSet {
    bit_set *set_ = nullptr;

    friend BitMatrix;
    friend BitRoaring;

    explicit BitSet(bit_set *set) : set_(set) {}

    static void require(bool done) {
        if (!done)
            BIT_SET_THROW(std::bad_alloc());
    }

    // Whether the result of a call that may insert a number is yes.
    static bool answer(std::int32_t answer) {
        if (answer == BIT_SET_NO_ELEMENT)
            BIT_SET_THROW(std::out_of_range("SIZE_MAX is in no set"));
        require(answer >= 0);
        return answer == BIT_SET_YES;
    }

public:
    // An iterator over the members in ascending order. It reads the set at each step, and the set may be changed meanwhile.
    class const_iterator {
        const bit_set *set_ = nullptr;
        std::size_t member_ = BIT_SET_NONE;

    public:
        using iterator_category = std::input_iterator_tag;
        using value_type = std::size_t;
        using difference_type = std::ptrdiff_t;
        using pointer = const std::size_t *;
        using reference = std::size_t;

        const_iterator() = default;
        const_iterator(const bit_set *set, std::size_t member) : set_(set), member_(member) {}
        std::size_t operator*() const { return member_; }
        const_iterator &operator++() {
            member_ = bit_set_next(set_, member_ + 1);
            return *this;
        }
        const_iterator operator++(int) {
            const_iterator before = *this;
            ++*this;
            return before;
        }
        bool operator==(const const_iterator &other) const { return member_ == other.member_; }
        bool operator!=(const const_iterator &other) const { return member_ != other.member_; }
    };

    using iterator = const_iterator;
    using value_type = std::size_t;

    BitSet() { require(bit_set_new(&set_)); }
    BitSet(std::initializer_list<std::size_t> members) : BitSet(members.begin(), members.end()) {}
    template <typename Iterator> BitSet(Iterator first, Iterator last) : BitSet() {
        for (; first != last; ++first)
            insert(*first);
    }
    BitSet(const BitSet &other) { require(bit_set_clone(&set_, other.set_)); }
    // A moved-from object may only be assigned to or destroyed.
    BitSet(BitSet &&other) noexcept : set_(std::exchange(other.set_, nullptr)) {}
    BitSet &operator=(BitSet other) noexcept {
        std::swap(set_, other.set_);
        return *this;
    }
    ~BitSet() { bit_set_free(set_); }

    bit_set *get() { return set_; }
    const bit_set *get() const { return set_; }

    const_iterator begin() const { return {set_, bit_set_first(set_)}; }
    const_iterator end() const { return {set_, BIT_SET_NONE}; }

    // Each returns whether that changed the set.
    bool insert(std::size_t value) { return answer(bit_set_insert(set_, value)); }
    bool erase(std::size_t value) { return bit_set_remove(set_, value); }

    void insert_range(std::size_t start, std::size_t end) { require(bit_set_insert_range(set_, start, end)); }
    void erase_range(std::size_t start, std::size_t end) { bit_set_remove_range(set_, start, end); }
    void toggle_range(std::size_t start, std::size_t end) { require(bit_set_toggle_range(set_, start, end)); }
    void reserve(std::size_t length) { require(bit_set_reserve(set_, length)); }
    void clear() { bit_set_make_empty(set_); }

    bool contains(std::size_t value) const { return bit_set_contains(set_, value); }
    std::size_t size() const { return bit_set_count(set_); }
    bool empty() const { return bit_set_is_empty(set_); }
    bool is_subset(const BitSet &other) const { return bit_set_is_subset(set_, other.set_); }
    bool is_disjoint(const BitSet &other) const { return bit_set_is_disjoint(set_, other.set_); }

    // A call on two sets must have two different ones: for a set and itself the result is that set, or the empty one.
    BitSet &operator|=(const BitSet &other) {
        require(set_ == other.set_ || bit_set_union_with(set_, other.set_));
        return *this;
    }
    BitSet &operator&=(const BitSet &other) {
        require(set_ == other.set_ || bit_set_intersect_with(set_, other.set_));
        return *this;
    }
    BitSet &operator-=(const BitSet &other) {
        if (set_ == other.set_)
            clear();
        else
            require(bit_set_difference_with(set_, other.set_));
        return *this;
    }
    BitSet &operator^=(const BitSet &other) {
        if (set_ == other.set_)
            clear();
        else
            require(bit_set_symmetric_difference_with(set_, other.set_));
        return *this;
    }
    friend BitSet operator|(BitSet a, const BitSet &b) { return std::move(a |= b); }
    friend BitSet operator&(BitSet a, const BitSet &b) { return std::move(a &= b); }
    friend BitSet operator-(BitSet a, const BitSet &b) { return std::move(a -= b); }
    friend BitSet operator^(BitSet a, const BitSet &b) { return std::move(a ^= b); }

    friend bool operator==(const BitSet &a, const BitSet &b) { return bit_set_equals(a.set_, b.set_); }
    friend bool operator!=(const BitSet &a, const BitSet &b) { return !(a == b); }
    // The order of the ascending lists of members.
    friend bool operator<(const BitSet &a, const BitSet &b) { return bit_set_compare(a.set_, b.set_) < 0; }
};

// A matrix of bits: rows of columns, each row a set. The numbers of both are fixed, and the caller must keep below them.
class BitMatrix {
    bit_matrix *matrix_ = nullptr;

    explicit BitMatrix(bit_matrix *matrix) : matrix_(matrix) {}

public:
    BitMatrix(std::size_t rows, std::size_t columns) { BitSet::require(bit_matrix_new(&matrix_, rows, columns)); }
    // A matrix of this many rows, each with the members of the set; it has as many columns as the set's length.
    BitMatrix(const BitSet &row, std::size_t rows) { BitSet::require(bit_matrix_from_set(&matrix_, row.get(), rows)); }
    BitMatrix(const BitMatrix &other) { BitSet::require(bit_matrix_clone(&matrix_, other.matrix_)); }
    // A moved-from object may only be assigned to or destroyed.
    BitMatrix(BitMatrix &&other) noexcept : matrix_(std::exchange(other.matrix_, nullptr)) {}
    BitMatrix &operator=(BitMatrix other) noexcept {
        std::swap(matrix_, other.matrix_);
        return *this;
    }
    ~BitMatrix() { bit_matrix_free(matrix_); }

    bit_matrix *get() { return matrix_; }
    const bit_matrix *get() const { return matrix_; }

    std::size_t rows() const { return bit_matrix_rows(matrix_); }
    std::size_t columns() const { return bit_matrix_columns(matrix_); }
    bool contains(std::size_t row, std::size_t column) const { return bit_matrix_contains(matrix_, row, column); }
    std::size_t count(std::size_t row) const { return bit_matrix_count(matrix_, row); }

    // Each returns whether that changed the row; of two rows, the second is written.
    bool insert(std::size_t row, std::size_t column) { return bit_matrix_insert(matrix_, row, column); }
    bool erase(std::size_t row, std::size_t column) { return bit_matrix_remove(matrix_, row, column); }
    bool unite_rows(std::size_t read, std::size_t write) { return bit_matrix_union_rows(matrix_, read, write); }
    bool intersect_rows(std::size_t read, std::size_t write) { return bit_matrix_intersect_rows(matrix_, read, write); }
    bool subtract_rows(std::size_t read, std::size_t write) { return bit_matrix_difference_rows(matrix_, read, write); }

    // The columns of a row as a set, and the matrix whose rows are the columns of this one.
    BitSet row(std::size_t row) const {
        bit_set *set = nullptr;
        BitSet::require(bit_matrix_row_to_set(&set, matrix_, row));
        return BitSet(set);
    }
    BitMatrix transposed() const {
        bit_matrix *matrix = nullptr;
        BitSet::require(bit_matrix_transpose(&matrix, matrix_));
        return BitMatrix(matrix);
    }

    // As a graph, in which an edge leads from a row to each of its columns: each row becomes everything to which a path of at
    // least one edge leads; and the matrix of what lies on every path from `entry` to each row.
    void close() { bit_matrix_transitive_closure(matrix_); }
    BitMatrix dominators(std::size_t entry) const {
        bit_matrix *matrix = nullptr;
        BitSet::require(bit_matrix_dominators(&matrix, matrix_, entry));
        return BitMatrix(matrix);
    }

    friend bool operator==(const BitMatrix &a, const BitMatrix &b) { return bit_matrix_equals(a.matrix_, b.matrix_); }
    friend bool operator!=(const BitMatrix &a, const BitMatrix &b) { return !(a == b); }
};

#undef BIT_SET_THROW

#endif
