// What both sweeps share: the time of a call on two sides, and a table of the worst of each.
#pragma once
#include <algorithm>
#include <chrono>
#include <cstdint>
#include <cstdio>
#include <cstdlib>
#include <cstring>
#include <map>
#include <random>
#include <string>
#include <vector>

namespace hunt {

using std::string;
using std::vector;

inline void check(bool done) {
    if (!done) {
        fprintf(stderr, "hunt: memory ran out\n");
        exit(1);
    }
}

// What a call returns goes here, so that no compiler leaves it out.
inline volatile uint64_t kept;

inline double nanoseconds() {
    return std::chrono::duration<double, std::nano>(std::chrono::steady_clock::now().time_since_epoch()).count();
}

template <class Call> double time_of_turns(const Call &call, size_t turns) {
    double start = nanoseconds();
    for (size_t turn = 0; turn < turns; turn++)
        kept = call();
    return (nanoseconds() - start) / static_cast<double>(turns);
}

struct Times {
    double ours, theirs;
};

// The least time of a call on each side, in nanoseconds. The turns are doubled until they take 0.2 ms; then the sides
// run in turn, five times each.
template <class Ours, class Theirs> Times times_of(const Ours &ours, const Theirs &theirs) {
    size_t turns = 1;
    while (time_of_turns(theirs, turns) * static_cast<double>(turns) < 2e5 && turns < (1u << 20))
        turns *= 2;
    Times least{time_of_turns(ours, 1), 1e30};
    // What takes a hundred times as long needs no exact figure.
    size_t own_turns = least.ours > 1e7 ? 1 : turns;
    for (int round = 0; round < 5; round++) {
        least.ours = std::min(least.ours, time_of_turns(ours, own_turns));
        least.theirs = std::min(least.theirs, time_of_turns(theirs, turns));
    }
    return least;
}

struct Row {
    string where;
    Times times;
    double ratio() const { return times.ours / times.theirs; }
};

// The rows of each call. Those that take at most 50 ns on both sides count for no bar: the loop is most of it.
class Table {
    std::map<string, vector<Row>> rows;
    // Whether each row is printed once it is known.
    bool prints_all;
    int differing = 0;

    void add_row(const char *call, Row row) {
        if (prints_all) {
            printf("%9.2f %12.1f %12.1f  %s: %s\n", row.ratio(), row.times.ours, row.times.theirs, call, where.c_str());
            fflush(stdout);
        }
        rows[call].push_back(std::move(row));
    }

  public:
    string where;

    explicit Table(bool all) : prints_all(all) {}

    template <class Ours, class Theirs> void add(const char *call, const Ours &ours, const Theirs &theirs) {
        add_row(call, {where, times_of(ours, theirs)});
    }

    // Notes bytes in place of times.
    void add_bytes(const char *what, double ours, double theirs) { add_row(what, {where, {ours, theirs}}); }

    void expect(bool same, const char *call) {
        if (!same) {
            printf("%s differs: %s\n", call, where.c_str());
            differing++;
        }
    }

    // Prints a row for each call, the worst first: the median and the worst ratio, and where that was.
    int print(const char *peer) {
        vector<std::pair<double, string>> lines;
        for (auto &[call, found] : rows) {
            std::sort(found.begin(), found.end(), [](const Row &a, const Row &b) { return a.ratio() < b.ratio(); });
            vector<Row> long_ones;
            for (const Row &row : found)
                if (row.times.ours > 50 || row.times.theirs > 50)
                    long_ones.push_back(row);
            const vector<Row> &counted = long_ones.empty() ? found : long_ones;
            const Row &worst = counted.back();
            char line[400];
            snprintf(line, sizeof line, "| `%s` | %zu | %.2f | %.2f | %.0f | %.0f | %s%s |", call.c_str(), found.size(),
                     found[found.size() / 2].ratio(), worst.ratio(), worst.times.ours, worst.times.theirs,
                     worst.where.c_str(), long_ones.empty() ? ", all below 50 ns" : "");
            lines.push_back({long_ones.empty() ? 0 : worst.ratio(), line});
        }
        std::sort(lines.rbegin(), lines.rend());
        printf("| call | rows | median | worst | ours there | %s there | where |\n|---|--:|--:|--:|--:|--:|---|\n", peer);
        for (const auto &line : lines)
            printf("%s\n", line.second.c_str());
        return differing > 0;
    }
};

} // namespace hunt
