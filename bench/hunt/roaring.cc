// Every call of `bit_roaring` for C beside CRoaring, on sets of many shapes and with others of many shapes. The results are
// compared. Prints a row for each call, the worst first, and with the argument `all` every row.
#include "bit_roaring.h"
#include "table.h"
#include <malloc.h>
#include <roaring/roaring.h>

using namespace hunt;

// The same set on both sides.
struct Side {
    bit_roaring *ours = nullptr;
    roaring_bitmap_t *theirs = nullptr;

    Side() = default;
    Side(const Side &other) : theirs(roaring_bitmap_copy(other.theirs)) { check(bit_roaring_clone(&ours, other.ours)); }
    Side &operator=(const Side &) = delete;
    ~Side() {
        bit_roaring_free(ours);
        roaring_bitmap_free(theirs);
    }
};

// The bytes of memory that are in use.
static double held() { return static_cast<double>(mallinfo2().uordblks); }

static vector<uint32_t> members_of(const roaring_bitmap_t *set) {
    vector<uint32_t> members(roaring_bitmap_get_cardinality(set));
    roaring_bitmap_to_uint32_array(set, members.data());
    return members;
}

static bool is_same(const bit_roaring *ours, const roaring_bitmap_t *theirs) {
    uint64_t count = roaring_bitmap_get_cardinality(theirs);
    if (bit_roaring_len(ours) != count)
        return false;
    vector<uint32_t> members(count), expected = members_of(theirs);
    return bit_roaring_copy_members(ours, 0, members.data(), count) == count && members == expected;
}

// Draws the members of one container by its kind; of many containers, runs are short.
static void draw(const string &kind, uint32_t key, bool is_one_of_many, std::mt19937 &random,
                 vector<uint32_t> &members) {
    uint32_t first = key << 16;
    vector<uint32_t> lows;
    if (kind == "few")
        for (int at = 0; at < 8; at++)
            lows.push_back(random() % 65536);
    else if (kind == "list")
        for (int at = 0; at < 4096; at++)
            lows.push_back(random() % 65536);
    else if (kind == "blocks")
        for (int at = 0; at < 20000; at++)
            lows.push_back(random() % 65536);
    else if (kind == "run")
        for (uint32_t low = 500 + random() % 500; low < (is_one_of_many ? 3000u : 60000u); low++)
            lows.push_back(low);
    else if (kind == "runs")
        for (uint32_t start = random() % 100; start < 65000; start += 650)
            for (uint32_t low = start; low < start + 300; low++)
                lows.push_back(low);
    std::sort(lows.begin(), lows.end());
    lows.erase(std::unique(lows.begin(), lows.end()), lows.end());
    for (uint32_t low : lows)
        members.push_back(first + low);
}

static Side side_of(const vector<uint32_t> &members) {
    Side side;
    check(bit_roaring_from_members(&side.ours, members.data(), members.size()));
    check(bit_roaring_optimize(side.ours) >= 0);
    side.theirs = roaring_bitmap_of_ptr(members.size(), members.data());
    roaring_bitmap_run_optimize(side.theirs);
    roaring_bitmap_shrink_to_fit(side.theirs);
    return side;
}

// A set of so many containers, every second key from `first` on.
static Side made(const string &kind, uint32_t containers, uint32_t first, unsigned seed) {
    std::mt19937 random(seed);
    static const char *const kinds[] = {"list", "blocks", "runs", "few"};
    vector<uint32_t> members;
    for (uint32_t at = 0; at < containers; at++)
        draw(kind == "mixed" ? kinds[(at + seed) % 4] : kind, first + 2 * at, containers > 100, random, members);
    return side_of(members);
}

static uint64_t next_of(const roaring_bitmap_t *set, uint32_t from) {
    roaring_uint32_iterator_t walk;
    roaring_init_iterator(set, &walk);
    return roaring_move_uint32_iterator_equalorlarger(&walk, from) ? walk.current_value : BIT_ROARING_NONE;
}

static uint64_t select_of(const roaring_bitmap_t *set, uint32_t n) {
    uint32_t found;
    return roaring_bitmap_select(set, n, &found) ? found : BIT_ROARING_NONE;
}

static void single_numbers(Table &table, Side &set, uint32_t number) {
    table.add("contains", [&] { return bit_roaring_contains(set.ours, number); },
              [&] { return roaring_bitmap_contains(set.theirs, number); });
    table.add("insert, remove",
              [&] { return bit_roaring_insert(set.ours, number) + bit_roaring_remove(set.ours, number); },
              [&] {
                  return roaring_bitmap_add_checked(set.theirs, number) +
                         roaring_bitmap_remove_checked(set.theirs, number);
              });
    table.add("min", [&] { return bit_roaring_min(set.ours); }, [&] { return roaring_bitmap_minimum(set.theirs); });
    table.add("max", [&] { return bit_roaring_max(set.ours); }, [&] { return roaring_bitmap_maximum(set.theirs); });
    table.add("rank", [&] { return bit_roaring_rank(set.ours, number); },
              [&] { return roaring_bitmap_rank(set.theirs, number); });
    uint32_t half = static_cast<uint32_t>(bit_roaring_len(set.ours) / 2);
    table.add("select", [&] { return bit_roaring_select(set.ours, half); },
              [&] { return select_of(set.theirs, half); });
    table.add("next", [&] { return bit_roaring_next(set.ours, number); }, [&] { return next_of(set.theirs, number); });
    table.expect(bit_roaring_rank(set.ours, number) == roaring_bitmap_rank(set.theirs, number), "rank");
    table.expect(bit_roaring_select(set.ours, half) == select_of(set.theirs, half), "select");
    table.expect(bit_roaring_next(set.ours, number) == next_of(set.theirs, number), "next");
}

static void ranges(Table &table, const Side &set, uint64_t start, uint64_t length, const string &name) {
    uint64_t end = start + length;
    table.add(("contains_range, " + name).c_str(), [&] { return bit_roaring_contains_range(set.ours, start, end); },
              [&] { return roaring_bitmap_contains_range(set.theirs, start, end); });
    table.add(("range_cardinality, " + name).c_str(),
              [&] { return bit_roaring_range_cardinality(set.ours, start, end); },
              [&] { return roaring_bitmap_range_cardinality(set.theirs, start, end); });
    table.expect(bit_roaring_range_cardinality(set.ours, start, end) ==
                     roaring_bitmap_range_cardinality(set.theirs, start, end),
                 "range_cardinality");
    Side copy(set);
    table.add(("insert_range, remove_range, " + name).c_str(),
              [&] {
                  return bit_roaring_insert_range(copy.ours, start, end) +
                         bit_roaring_remove_range(copy.ours, start, end);
              },
              [&] {
                  roaring_bitmap_add_range(copy.theirs, start, end);
                  roaring_bitmap_remove_range(copy.theirs, start, end);
                  return 0;
              });
    table.expect(is_same(copy.ours, copy.theirs), "insert_range, remove_range");
}

static void whole_sets(Table &table, const Side &set) {
    table.add("len", [&] { return bit_roaring_len(set.ours); },
              [&] { return roaring_bitmap_get_cardinality(set.theirs); });
    table.add("statistics",
              [&] {
                  bit_roaring_kinds kinds;
                  bit_roaring_statistics(set.ours, &kinds);
                  return kinds.lists.members;
              },
              [&] {
                  roaring_statistics_t kinds;
                  roaring_bitmap_statistics(set.theirs, &kinds);
                  return kinds.n_values_array_containers;
              });
    vector<uint32_t> members = members_of(set.theirs);
    uint64_t from = members.empty() ? 0 : members[members.size() / 2];
    uint32_t buffer[256];
    table.add("copy_members, 256", [&] { return bit_roaring_copy_members(set.ours, from, buffer, 256); },
              [&] {
                  roaring_uint32_iterator_t walk;
                  roaring_init_iterator(set.theirs, &walk);
                  roaring_move_uint32_iterator_equalorlarger(&walk, static_cast<uint32_t>(from));
                  return roaring_read_uint32_iterator(&walk, buffer, 256);
              });
    table.add("copy_members, all",
              [&] { return bit_roaring_copy_members(set.ours, 0, members.data(), members.size()); },
              [&] {
                  roaring_bitmap_to_uint32_array(set.theirs, members.data());
                  return members.size();
              });
    table.add("clone",
              [&] {
                  bit_roaring *copy = nullptr;
                  bool made = bit_roaring_clone(&copy, set.ours);
                  bit_roaring_free(copy);
                  return made;
              },
              [&] {
                  roaring_bitmap_t *copy = roaring_bitmap_copy(set.theirs);
                  roaring_bitmap_free(copy);
                  return copy != nullptr;
              });
    table.add("from_members",
              [&] {
                  bit_roaring *copy = nullptr;
                  bool made = bit_roaring_from_members(&copy, members.data(), members.size());
                  bit_roaring_free(copy);
                  return made;
              },
              [&] {
                  roaring_bitmap_t *copy = roaring_bitmap_of_ptr(members.size(), members.data());
                  roaring_bitmap_free(copy);
                  return copy != nullptr;
              });
    // CRoaring has no call for numbers that ascend: its insertion of many is the nearest.
    table.add("append_members",
              [&] {
                  bit_roaring *copy = nullptr;
                  size_t appended = 0;
                  check(bit_roaring_new(&copy));
                  check(bit_roaring_append_members(copy, members.data(), members.size(), &appended) == BIT_ROARING_YES);
                  bit_roaring_free(copy);
                  return appended;
              },
              [&] {
                  roaring_bitmap_t *copy = roaring_bitmap_create();
                  roaring_bitmap_add_many(copy, members.size(), members.data());
                  roaring_bitmap_free(copy);
                  return copy != nullptr;
              });
    table.add("optimize a clone",
              [&] {
                  bit_roaring *copy = nullptr;
                  check(bit_roaring_clone(&copy, set.ours));
                  int32_t changed = bit_roaring_optimize(copy);
                  bit_roaring_free(copy);
                  return changed;
              },
              [&] {
                  roaring_bitmap_t *copy = roaring_bitmap_copy(set.theirs);
                  bool has_runs = roaring_bitmap_run_optimize(copy);
                  roaring_bitmap_free(copy);
                  return has_runs;
              });
    table.add("remove_runs of a clone",
              [&] {
                  bit_roaring *copy = nullptr;
                  check(bit_roaring_clone(&copy, set.ours));
                  int32_t changed = bit_roaring_remove_runs(copy);
                  bit_roaring_free(copy);
                  return changed;
              },
              [&] {
                  roaring_bitmap_t *copy = roaring_bitmap_copy(set.theirs);
                  bool changed = roaring_bitmap_remove_run_compression(copy);
                  roaring_bitmap_free(copy);
                  return changed;
              });
}

static void bytes(Table &table, const Side &set) {
    size_t count = bit_roaring_serialized_size(set.ours);
    vector<uint8_t> ours(count), theirs(roaring_bitmap_portable_size_in_bytes(set.theirs));
    table.add("serialized_size", [&] { return bit_roaring_serialized_size(set.ours); },
              [&] { return roaring_bitmap_portable_size_in_bytes(set.theirs); });
    table.add("serialize", [&] { return bit_roaring_serialize(set.ours, ours.data(), count); },
              [&] { return roaring_bitmap_portable_serialize(set.theirs, reinterpret_cast<char *>(theirs.data())); });
    table.expect(ours == theirs, "serialize");
    table.add("deserialize",
              [&] {
                  bit_roaring *read = nullptr;
                  size_t used = 0;
                  int32_t answer = bit_roaring_deserialize(&read, ours.data(), count, &used);
                  bit_roaring_free(read);
                  return answer;
              },
              [&] {
                  auto *read =
                      roaring_bitmap_portable_deserialize_safe(reinterpret_cast<char *>(theirs.data()), theirs.size());
                  roaring_bitmap_free(read);
                  return read != nullptr;
              });
}

using Merge = bool (*)(bit_roaring **, const bit_roaring *, const bit_roaring *);
using TheirMerge = roaring_bitmap_t *(*)(const roaring_bitmap_t *, const roaring_bitmap_t *);
using InPlace = int32_t (*)(bit_roaring *, const bit_roaring *);
using TheirInPlace = void (*)(roaring_bitmap_t *, const roaring_bitmap_t *);
using Count = uint64_t (*)(const bit_roaring *, const bit_roaring *);
using TheirCount = uint64_t (*)(const roaring_bitmap_t *, const roaring_bitmap_t *);

struct Operation {
    const char *name, *in_place_name, *count_name;
    Merge merge;
    TheirMerge their_merge;
    InPlace in_place;
    TheirInPlace their_in_place;
    Count count;
    TheirCount their_count;
};

static const Operation operations[] = {
    {"union", "union_with", "union_len", bit_roaring_union, roaring_bitmap_or, bit_roaring_union_with,
     roaring_bitmap_or_inplace, bit_roaring_union_len, roaring_bitmap_or_cardinality},
    {"intersection", "intersect_with", "intersection_len", bit_roaring_intersection, roaring_bitmap_and,
     bit_roaring_intersect_with, roaring_bitmap_and_inplace, bit_roaring_intersection_len,
     roaring_bitmap_and_cardinality},
    {"difference", "difference_with", "difference_len", bit_roaring_difference, roaring_bitmap_andnot,
     bit_roaring_difference_with, roaring_bitmap_andnot_inplace, bit_roaring_difference_len,
     roaring_bitmap_andnot_cardinality},
    {"symmetric_difference", "symmetric_difference_with", "symmetric_difference_len", bit_roaring_symmetric_difference,
     roaring_bitmap_xor, bit_roaring_symmetric_difference_with, roaring_bitmap_xor_inplace,
     bit_roaring_symmetric_difference_len, roaring_bitmap_xor_cardinality}};

static void merges(Table &table, const Side &set, const Side &other, const Operation &of) {
    table.add(of.name,
              [&] {
                  bit_roaring *made = nullptr;
                  bool is_made = of.merge(&made, set.ours, other.ours);
                  bit_roaring_free(made);
                  return is_made;
              },
              [&] {
                  roaring_bitmap_t *made = of.their_merge(set.theirs, other.theirs);
                  roaring_bitmap_free(made);
                  return made != nullptr;
              });
    table.add((string(of.in_place_name) + " of a clone").c_str(),
              [&] {
                  bit_roaring *copy = nullptr;
                  check(bit_roaring_clone(&copy, set.ours));
                  int32_t changed = of.in_place(copy, other.ours);
                  bit_roaring_free(copy);
                  return changed;
              },
              [&] {
                  roaring_bitmap_t *copy = roaring_bitmap_copy(set.theirs);
                  of.their_in_place(copy, other.theirs);
                  roaring_bitmap_free(copy);
                  return copy != nullptr;
              });
    table.add(of.count_name, [&] { return of.count(set.ours, other.ours); },
              [&] { return of.their_count(set.theirs, other.theirs); });
    table.expect(of.count(set.ours, other.ours) == of.their_count(set.theirs, other.theirs), of.count_name);
    Side copy(set);
    of.in_place(copy.ours, other.ours);
    of.their_in_place(copy.theirs, other.theirs);
    table.expect(is_same(copy.ours, copy.theirs), of.in_place_name);
    // From the second turn on nothing changes, or with a symmetric difference all comes back.
    table.add((string(of.in_place_name) + " again").c_str(), [&] { return of.in_place(copy.ours, other.ours); },
              [&] {
                  of.their_in_place(copy.theirs, other.theirs);
                  return 0;
              });
}

static void held_bytes(Table &table, const Side &set, const Side &other, const Operation &of) {
    double before = held();
    bit_roaring *ours = nullptr;
    check(bit_roaring_clone(&ours, set.ours));
    of.in_place(ours, other.ours);
    double own = held() - before;
    before = held();
    roaring_bitmap_t *theirs = roaring_bitmap_copy(set.theirs);
    of.their_in_place(theirs, other.theirs);
    double their_own = held() - before;
    table.add_bytes((string("bytes after ") + of.in_place_name).c_str(), std::max(own, 64.0), std::max(their_own, 64.0));
    bit_roaring_free(ours);
    roaring_bitmap_free(theirs);
}

static void relations(Table &table, const Side &set, const Side &other) {
    table.add("is_subset", [&] { return bit_roaring_is_subset(set.ours, other.ours); },
              [&] { return roaring_bitmap_is_subset(set.theirs, other.theirs); });
    table.add("is_subset, exchanged", [&] { return bit_roaring_is_subset(other.ours, set.ours); },
              [&] { return roaring_bitmap_is_subset(other.theirs, set.theirs); });
    table.add("is_disjoint", [&] { return bit_roaring_is_disjoint(set.ours, other.ours); },
              [&] { return !roaring_bitmap_intersect(set.theirs, other.theirs); });
    table.add("equals", [&] { return bit_roaring_equals(set.ours, other.ours); },
              [&] { return roaring_bitmap_equals(set.theirs, other.theirs); });
    // CRoaring has no order: that equality takes less is no fault.
    table.add("compare", [&] { return bit_roaring_compare(set.ours, other.ours); },
              [&] { return roaring_bitmap_equals(set.theirs, other.theirs); });
    table.expect(bit_roaring_is_subset(set.ours, other.ours) == roaring_bitmap_is_subset(set.theirs, other.theirs),
                 "is_subset");
    table.expect(bit_roaring_is_disjoint(set.ours, other.ours) == !roaring_bitmap_intersect(set.theirs, other.theirs),
                 "is_disjoint");
}

static void of_a_shape(Table &table, const string &kind, uint32_t containers) {
    string shape = std::to_string(containers) + " of " + kind;
    // The first key is even and above 0, so that keys before, between and behind are free.
    uint32_t first = 10, middle = first + 2 * (containers / 2);
    Side set = made(kind, containers, first, 1);
    table.where = shape;
    single_numbers(table, set, (middle << 16) + 777);
    single_numbers(table, set, ((middle + 1) << 16) + 777);
    whole_sets(table, set);
    bytes(table, set);
    ranges(table, set, (uint64_t(middle) << 16) + 1000, 2, "2");
    ranges(table, set, (uint64_t(middle) << 16) + 1000, 200, "200");
    ranges(table, set, (uint64_t(middle) << 16) + 1000, uint64_t(containers) << 15, "a quarter");
    const std::pair<const char *, Side> others[] = {
        {"itself", Side(set)},
        {"one like it", made(kind, containers, first, 2)},
        {"a quarter of mixed", made("mixed", containers / 4 + 1, first, 3)},
        {"one number", made("few", 1, middle, 4)},
        {"a new key before", made("few", 1, 1, 5)},
        {"a new key between", made("few", 1, middle + 1, 6)},
        {"a new key behind", made("list", 1, first + 2 * containers, 7)},
        {"keys between", made(kind, containers, first + 1, 8)},
    };
    for (const auto &[name, other] : others) {
        table.where = shape + ", with " + name;
        for (const Operation &of : operations) {
            merges(table, set, other, of);
            held_bytes(table, set, other, of);
        }
        relations(table, set, other);
    }
}

int main(int count, char **arguments) {
    Table table(count > 1 && strcmp(arguments[1], "all") == 0);
    for (const char *kind : {"few", "list", "blocks", "run", "runs", "mixed"})
        for (uint32_t containers : {1u, 8u, 1000u, 20000u}) {
            // 20,000 containers of blocks would take 160 MB a set, a dozen times over.
            if (containers == 20000 && strcmp(kind, "few") != 0 && strcmp(kind, "run") != 0)
                continue;
            of_a_shape(table, kind, containers);
        }
    return table.print("CRoaring");
}
