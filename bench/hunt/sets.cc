// Calls of `bit_set` for C beside what a C programmer would write over a plain array of words, on sets of many sizes and
// shapes. The results are compared. Prints a row for each call, the worst first, and with the argument `all` every row.
#include "bit_set.h"
#include "table.h"

using namespace hunt;

// A plain array of words.
struct Words {
    vector<uint64_t> words;

    explicit Words(size_t count = 0) : words(count) {}

    static uint64_t below(size_t place) { return place >= 64 ? ~0ull : (1ull << place) - 1; }

    // Calls with each word that the range meets, by its index, and the bits of the range in it. Stops at a false.
    template <class Call> bool each(size_t start, size_t end, const Call &call) const {
        end = std::min(end, 64 * words.size());
        for (size_t at = start / 64; start < end && 64 * at < end; at++) {
            uint64_t bits = below(end - 64 * at);
            if (64 * at < start)
                bits &= ~below(start % 64);
            if (!call(at, bits))
                return false;
        }
        return true;
    }

    size_t next(size_t from, uint64_t flip = 0) const {
        for (size_t at = from / 64; at < words.size(); at++) {
            uint64_t bits = (words[at] ^ flip) & (64 * at < from ? ~below(from % 64) : ~0ull);
            if (bits != 0)
                return 64 * at + static_cast<size_t>(__builtin_ctzll(bits));
        }
        return flip == 0 ? SIZE_MAX : std::max(from, 64 * words.size());
    }

    size_t previous(size_t end) const {
        for (size_t at = std::min(words.size(), (end + 63) / 64); at-- > 0;) {
            uint64_t bits = words[at] & below(end - 64 * at);
            if (bits != 0)
                return 64 * at + 63 - static_cast<size_t>(__builtin_clzll(bits));
        }
        return SIZE_MAX;
    }

    size_t count(size_t start, size_t end) const {
        size_t total = 0;
        each(start, end, [&](size_t at, uint64_t bits) {
            total += static_cast<size_t>(__builtin_popcountll(words[at] & bits));
            return true;
        });
        return total;
    }
};

struct Side {
    bit_set *ours = nullptr;
    Words theirs;

    Side() = default;
    Side(const Side &other) : theirs(other.theirs) { check(bit_set_clone(&ours, other.ours)); }
    Side &operator=(const Side &) = delete;
    ~Side() { bit_set_free(ours); }
};

static Side made(size_t length, const string &shape, unsigned seed) {
    std::mt19937_64 random(seed);
    Side side;
    vector<uint64_t> &words = side.theirs.words;
    words.assign((length + 63) / 64, 0);
    auto put = [&](size_t number) { words[number / 64] |= 1ull << (number % 64); };
    size_t drawn = shape == "a thousand" ? 1000 : shape == "1 in 1,000" ? length / 1000 + 1 : shape == "1 in 30" ? length / 30 + 1 : 0;
    for (size_t at = 0; at < drawn; at++)
        put(random() % length);
    if (shape == "half")
        for (uint64_t &word : words)
            word = random();
    if (shape == "all")
        for (uint64_t &word : words)
            word = ~0ull;
    if (shape == "runs")
        for (size_t start = 0; start + 1000 < length; start += 4000)
            side.theirs.each(start, start + 1000, [&](size_t at, uint64_t bits) { return words[at] |= bits, true; });
    if (shape == "the lower half")
        for (size_t at = 0; at < words.size() / 2; at++)
            words[at] = random();
    if (shape != "none")
        put(length - 1);
    if (length % 64 != 0)
        words.back() &= Words::below(length % 64);
    check(bit_set_with_capacity(&side.ours, length) && bit_set_put_blocks(side.ours, 0, words.data(), words.size()));
    return side;
}

static bool is_same(const bit_set *ours, const Words &theirs) {
    vector<uint64_t> blocks(theirs.words.size());
    size_t copied = bit_set_copy_blocks(ours, 0, blocks.data(), blocks.size());
    return std::equal(blocks.begin(), blocks.begin() + static_cast<long>(copied), theirs.words.begin()) &&
           theirs.next(64 * copied) == SIZE_MAX;
}

static void single_numbers(Table &table, Side &set, size_t number) {
    vector<uint64_t> &words = set.theirs.words;
    uint64_t bit = 1ull << (number % 64);
    table.add("contains", [&] { return bit_set_contains(set.ours, number); },
              [&] { return (words[number / 64] & bit) != 0; });
    table.add("toggle twice", [&] { return bit_set_toggle(set.ours, number) + bit_set_toggle(set.ours, number); },
              [&] {
                  words[number / 64] ^= bit;
                  hunt::kept = words[number / 64];
                  words[number / 64] ^= bit;
                  return words[number / 64];
              });
    table.add("first", [&] { return bit_set_first(set.ours); }, [&] { return set.theirs.next(0); });
    table.add("last", [&] { return bit_set_last(set.ours); }, [&] { return set.theirs.previous(64 * words.size()); });
    table.add("next", [&] { return bit_set_next(set.ours, number); }, [&] { return set.theirs.next(number); });
    table.add("previous", [&] { return bit_set_previous(set.ours, number); },
              [&] { return set.theirs.previous(number); });
    table.add("next_missing", [&] { return bit_set_next_missing(set.ours, number); },
              [&] { return set.theirs.next(number, ~0ull); });
    table.add("nth", [&] { return bit_set_nth(set.ours, number, 3); },
              [&] {
                  size_t found = set.theirs.next(number);
                  for (int left = 3; left > 0 && found != SIZE_MAX; left--)
                      found = set.theirs.next(found + 1);
                  return found;
              });
    table.add("next_run",
              [&] {
                  size_t start = 0, end = 0;
                  return bit_set_next_run(set.ours, number, &start, &end) ? end : 0;
              },
              [&] {
                  size_t start = set.theirs.next(number);
                  return start == SIZE_MAX ? 0 : set.theirs.next(start, ~0ull);
              });
    size_t buffer[256];
    table.add("copy_members, 256", [&] { return bit_set_copy_members(set.ours, number, buffer, 256); },
              [&] {
                  size_t copied = 0;
                  for (size_t member = set.theirs.next(number); copied < 256 && member != SIZE_MAX;
                       member = set.theirs.next(member + 1))
                      buffer[copied++] = member;
                  return copied;
              });
    table.expect(bit_set_next(set.ours, number) == set.theirs.next(number), "next");
    table.expect(bit_set_previous(set.ours, number) == set.theirs.previous(number), "previous");
}

static void ranges(Table &table, Side &set, size_t start, size_t end, const string &name) {
    Words &theirs = set.theirs;
    auto named = [&](const char *call) { return string(call) + ", " + name; };
    table.add(named("contains_any_in_range").c_str(),
              [&] { return bit_set_contains_any_in_range(set.ours, start, end); },
              [&] {
                  return !theirs.each(start, end, [&](size_t at, uint64_t bits) { return (theirs.words[at] & bits) == 0; });
              });
    table.add(named("contains_all_in_range").c_str(),
              [&] { return bit_set_contains_all_in_range(set.ours, start, end); },
              [&] {
                  return theirs.each(start, end, [&](size_t at, uint64_t bits) { return (~theirs.words[at] & bits) == 0; });
              });
    table.add(named("count_in_range").c_str(), [&] { return bit_set_count_in_range(set.ours, start, end); },
              [&] { return theirs.count(start, end); });
    table.add(named("toggle_range twice").c_str(),
              [&] { return bit_set_toggle_range(set.ours, start, end) + bit_set_toggle_range(set.ours, start, end); },
              [&] {
                  for (int turn = 0; turn < 2; turn++) {
                      theirs.each(start, end, [&](size_t at, uint64_t bits) { return theirs.words[at] ^= bits, true; });
                      hunt::kept = theirs.words[0];
                  }
                  return theirs.words[0];
              });
    table.add(named("copy_range").c_str(),
              [&] {
                  bit_set *copy = nullptr;
                  bool is_made = bit_set_copy_range(&copy, set.ours, start, end);
                  bit_set_free(copy);
                  return is_made;
              },
              [&] {
                  auto *copy = static_cast<uint64_t *>(calloc((end + 63) / 64, 8));
                  theirs.each(start, end, [&](size_t at, uint64_t bits) { return copy[at] = theirs.words[at] & bits, true; });
                  hunt::kept = copy[start / 64];
                  free(copy);
                  return 0;
              });
    Side copy(set);
    table.add(named("insert_range, remove_range").c_str(),
              [&] {
                  bool is_done = bit_set_insert_range(copy.ours, start, end);
                  bit_set_remove_range(copy.ours, start, end);
                  return is_done;
              },
              [&] {
                  Words &own = copy.theirs;
                  own.each(start, end, [&](size_t at, uint64_t bits) { return own.words[at] |= bits, true; });
                  hunt::kept = own.words[0];
                  own.each(start, end, [&](size_t at, uint64_t bits) { return own.words[at] &= ~bits, true; });
                  return own.words[0];
              });
    table.expect(is_same(copy.ours, copy.theirs), "insert_range, remove_range");
    table.expect(bit_set_count_in_range(set.ours, start, end) == theirs.count(start, end), "count_in_range");
}

static void whole_sets(Table &table, const Side &set) {
    const vector<uint64_t> &words = set.theirs.words;
    size_t bytes = 8 * words.size();
    table.add("count", [&] { return bit_set_count(set.ours); }, [&] { return set.theirs.count(0, 8 * bytes); });
    table.add("is_empty", [&] { return bit_set_is_empty(set.ours); }, [&] { return set.theirs.next(0) == SIZE_MAX; });
    table.add("clone",
              [&] {
                  bit_set *copy = nullptr;
                  bool is_made = bit_set_clone(&copy, set.ours);
                  bit_set_free(copy);
                  return is_made;
              },
              [&] {
                  void *copy = malloc(bytes);
                  memcpy(copy, words.data(), bytes);
                  hunt::kept = *static_cast<uint64_t *>(copy);
                  free(copy);
                  return 0;
              });
    vector<uint8_t> buffer(bytes);
    auto copied = [&](size_t from, size_t room) {
        memcpy(buffer.data(), reinterpret_cast<const char *>(words.data()) + from, room);
        return buffer[0];
    };
    size_t middle = bytes / 2, few = std::min<size_t>(16, bytes - middle);
    table.add("copy_bytes_lsb, 16", [&] { return bit_set_copy_bytes_lsb(set.ours, middle, buffer.data(), few); },
              [&] { return copied(middle, few); });
    table.add("copy_bytes_lsb, all", [&] { return bit_set_copy_bytes_lsb(set.ours, 0, buffer.data(), bytes); },
              [&] { return copied(0, bytes); });
    table.add("copy_bytes, all", [&] { return bit_set_copy_bytes(set.ours, 0, buffer.data(), bytes); },
              [&] { return copied(0, bytes); });
    table.add("from_bytes_lsb",
              [&] {
                  bit_set *made = nullptr;
                  bool is_made = bit_set_from_bytes_lsb(&made, reinterpret_cast<const uint8_t *>(words.data()), bytes);
                  bit_set_free(made);
                  return is_made;
              },
              [&] { return copied(0, bytes); });
}

struct Operation {
    const char *in_place_name, *changes_name, *count_name, *copy_name;
    bool (*in_place)(bit_set *, const bit_set *);
    int32_t (*changes)(bit_set *, const bit_set *);
    size_t (*count)(const bit_set *, const bit_set *);
    size_t (*copy)(const bit_set *, const bit_set *, size_t, bit_set_block *, size_t);
    uint64_t (*word)(uint64_t, uint64_t);
    // Whether what only the first set has stays, and what only the other has comes in.
    bool keeps, takes;
};

static const Operation operations[] = {
    {"union_with", "union_changes", "union_count", "copy_union", bit_set_union_with, bit_set_union_changes,
     bit_set_union_count, bit_set_copy_union, [](uint64_t a, uint64_t b) { return a | b; }, true, true},
    {"intersect_with", "intersection_changes", "intersection_count", "copy_intersection", bit_set_intersect_with,
     bit_set_intersection_changes, bit_set_intersection_count, bit_set_copy_intersection,
     [](uint64_t a, uint64_t b) { return a & b; }, false, false},
    {"difference_with", "difference_changes", "difference_count", "copy_difference", bit_set_difference_with,
     bit_set_difference_changes, bit_set_difference_count, bit_set_copy_difference,
     [](uint64_t a, uint64_t b) { return a & ~b; }, true, false},
    {"symmetric_difference_with", "symmetric_difference_changes", "symmetric_difference_count",
     "copy_symmetric_difference", bit_set_symmetric_difference_with, bit_set_symmetric_difference_changes,
     bit_set_symmetric_difference_count, bit_set_copy_symmetric_difference,
     [](uint64_t a, uint64_t b) { return a ^ b; }, true, true}};

// The count of a merge: the words of both, and of the longer array where it counts.
static size_t count_of(const Words &a, const Words &b, const Operation &of) {
    size_t common = std::min(a.words.size(), b.words.size()), total = 0;
    for (size_t at = 0; at < common; at++)
        total += static_cast<size_t>(__builtin_popcountll(of.word(a.words[at], b.words[at])));
    if (of.keeps)
        total += a.count(64 * common, 64 * a.words.size());
    if (of.takes)
        total += b.count(64 * common, 64 * b.words.size());
    return total;
}

static uint64_t merge(Words &a, const Words &b, const Operation &of) {
    size_t common = std::min(a.words.size(), b.words.size());
    if (of.takes && a.words.size() < b.words.size())
        a.words.resize(b.words.size());
    for (size_t at = 0; at < (of.takes ? b.words.size() : common); at++)
        a.words[at] = of.word(a.words[at], b.words[at]);
    for (size_t at = common; !of.keeps && at < a.words.size(); at++)
        a.words[at] = 0;
    return a.words.empty() ? 0 : a.words[0];
}

static void merges(Table &table, const Side &set, const Side &other, const Operation &of) {
    table.add(of.count_name, [&] { return of.count(set.ours, other.ours); },
              [&] { return count_of(set.theirs, other.theirs, of); });
    table.expect(of.count(set.ours, other.ours) == count_of(set.theirs, other.theirs, of), of.count_name);
    size_t common = std::min(set.theirs.words.size(), other.theirs.words.size());
    vector<uint64_t> blocks(common);
    table.add(of.copy_name, [&] { return of.copy(set.ours, other.ours, 0, blocks.data(), common); },
              [&] {
                  for (size_t at = 0; at < common; at++)
                      blocks[at] = of.word(set.theirs.words[at], other.theirs.words[at]);
                  return blocks[0];
              });
    Side copy(set);
    check(of.in_place(copy.ours, other.ours));
    merge(copy.theirs, other.theirs, of);
    table.expect(is_same(copy.ours, copy.theirs), of.in_place_name);
    table.add(of.in_place_name, [&] { return of.in_place(copy.ours, other.ours); },
              [&] { return merge(copy.theirs, other.theirs, of); });
    table.add(of.changes_name, [&] { return of.changes(copy.ours, other.ours); },
              [&] { return merge(copy.theirs, other.theirs, of); });
}

template <class Found> static bool is_any(const Words &a, const Words &b, const Found &found) {
    for (size_t at = 0; at < a.words.size(); at++)
        if (found(a.words[at], at < b.words.size() ? b.words[at] : 0))
            return true;
    return false;
}

// The order of two sets as lists of their members: of those that differ, the one that has the first number of one alone is the
// less, unless the other has no member after it.
static int order(const Words &a, const Words &b) {
    size_t most = std::max(a.words.size(), b.words.size());
    for (size_t at = 0; at < most; at++) {
        uint64_t x = at < a.words.size() ? a.words[at] : 0, y = at < b.words.size() ? b.words[at] : 0;
        if (x == y)
            continue;
        uint64_t first = (x ^ y) & -(x ^ y);
        const Words &other = x & first ? b : a;
        bool is_last = (x & first ? y : x) < first;
        while (is_last && ++at < other.words.size())
            is_last = other.words[at] == 0;
        return ((x & first) != 0) == is_last ? 1 : -1;
    }
    return 0;
}

static void relations(Table &table, const Side &set, const Side &other) {
    const Words &a = set.theirs, &b = other.theirs;
    table.add("is_subset", [&] { return bit_set_is_subset(set.ours, other.ours); },
              [&] { return !is_any(a, b, [](uint64_t x, uint64_t y) { return (x & ~y) != 0; }); });
    table.add("is_subset, exchanged", [&] { return bit_set_is_subset(other.ours, set.ours); },
              [&] { return !is_any(b, a, [](uint64_t x, uint64_t y) { return (x & ~y) != 0; }); });
    table.add("is_disjoint", [&] { return bit_set_is_disjoint(set.ours, other.ours); },
              [&] { return !is_any(a, b, [](uint64_t x, uint64_t y) { return (x & y) != 0; }); });
    auto equal = [&] {
        return a.words.size() == b.words.size() && memcmp(a.words.data(), b.words.data(), 8 * a.words.size()) == 0;
    };
    table.add("equals", [&] { return bit_set_equals(set.ours, other.ours); }, equal);
    table.add("compare", [&] { return bit_set_compare(set.ours, other.ours); }, [&] { return order(a, b); });
    table.expect(bit_set_compare(set.ours, other.ours) == order(a, b), "compare");
    table.expect(bit_set_equals(set.ours, other.ours) == equal(), "equals");
}

static void of_a_shape(Table &table, size_t length, const string &name, const string &shape) {
    table.where = name + ", " + shape;
    Side set = made(length, shape, 1);
    size_t middle = length / 2 + 5;
    single_numbers(table, set, middle);
    ranges(table, set, middle, std::min(middle + 2, length), "2");
    ranges(table, set, middle, std::min(middle + 200, length), "200");
    ranges(table, set, middle, std::min(middle + length / 4, length), "a quarter");
    whole_sets(table, set);
    const std::pair<const char *, Side> others[] = {{"itself", Side(set)},
                                                    {"one like it", made(length, shape, 2)},
                                                    {"half of 100 numbers", made(100, "half", 3)},
                                                    {"half of all", made(length, "half", 4)}};
    for (const auto &[named, other] : others) {
        table.where = name + ", " + shape + ", with " + named;
        for (const Operation &of : operations)
            merges(table, set, other, of);
        relations(table, set, other);
    }
}

int main(int count, char **arguments) {
    Table table(count > 1 && strcmp(arguments[1], "all") == 0);
    for (int bits : {6, 9, 12, 16, 20, 24, 26})
        for (const char *shape :
             {"none", "one number", "a thousand", "1 in 1,000", "1 in 30", "half", "all", "runs", "the lower half"})
            of_a_shape(table, size_t(1) << bits, "2^" + std::to_string(bits), shape);
    return table.print("plain loops");
}
