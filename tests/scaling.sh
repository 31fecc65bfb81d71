#!/usr/bin/env -S bash -p
# Counts the instructions of calls at a size n and at 16 n, by the built program `scaling` and valgrind's tool callgrind:
# those of four turns and of two, half the difference of which is one turn. Other work on the machine does not affect
# these counts.
#   tests/scaling.sh PROGRAM          compares each row with its bounds
#   tests/scaling.sh PROGRAM --show   also prints a line for each row, with what it took
# If there is no valgrind, it says so and counts nothing. The last line is 'N passed, M failed'.
case $- in *p*) ;; *) exec bash -p "$0" "$@" ;; esac
set -uo pipefail
# shellcheck source=tools/start.sh
. "$(dirname "$(readlink -f "$0")")/../tools/start.sh"
# Elsewhere awk may write a fraction with a comma, and then take it for text.
export LC_ALL=C
if [ $# -ne 1 ] && [ "$# ${2:-}" != '2 --show' ]; then
    echo 'usage: tests/scaling.sh PROGRAM [--show]' >&2
    exit 2
fi
top="$(dirname "$(dirname "$(readlink -f "${BASH_SOURCE[0]}")")")"
program="$(readlink -f "$1")"
show="${2:-}"
passed=0
failed=0

fail() {
    echo "FAILED: $1"
    failed=$((failed + 1))
}

if ! command -v valgrind > /dev/null; then
    echo 'left out: what calls cost at two sizes, without valgrind, which counts instructions'
    echo '0 passed, 0 failed'
    exit 0
fi
. "$top/tools/ending.sh"
make_room || exit 1

# The call, the set that it is made on, n, and how many instructions a turn may take at 16 n: so many times those at n, and
# so many in all. Blocks have 64 bits, so a set of 1,048,576 numbers has 16,384 of them, and 256 in its summary.
# - `two` is {0, n}, and `zero` is {0} in as long a set. What goes by the summary takes a few instructions for each of its
#   blocks, and so fewer than there are blocks in the set.
# - `many` is one in 16 numbers, scattered, and `full` is all below n. What takes constant time for each number or block
#   takes 16 times as many. An operation in place that passes over all blocks may take 4 instructions for each, or 8 where it
#   makes the summary too, so that it reads and writes each of them once.
# - One `of_short` is beside {0, 40,000}, whose summary has 10 blocks, and one `of_others` beside a set that lacks 3.
# - A call on a range takes 1,000 numbers in the middle, the same at each n; one named `_of_all` takes all from 2 to n.
# - A graph is a chain of n nodes, whose closure merges about n² / 2 rows; of `solve` each of n blocks is visited twice.
rows="$(
    cat << 'END'
first                         two    65536  1.2       100
last                          zero   65536    5       870
next                          two    65536    5       840
previous                      two    65536    5       870
pop_first                     two    65536    8      2600
pop_last                      two    65536    5      1300
is_empty                      zero   65536  1.2        80
next_missing                  full   65536   17    210000
take_all                      many   65536   17   4400000
take_and_insert               many   65536   17   2800000
iter                          two    65536    5       920
iter                          many   65536   17   2200000
rev                           two    65536    5       910
rev                           many   65536   17   1100000
range                         many   65536  1.2      2200
range                         two    65536  1.2       180
nth                           many   65536    9     53000
nth                           full   65536    5      7300
nth_of_two                    two    65536    5       930
count                         two    65536    5      1200
count                         many   65536   17     80000
missing                       full   65536   17    560000
missing                       many   65536   17  12000000
count_missing                 many   65536   17     78000
retain                        two    65536    5      1100
retain                        many   65536   17   2600000
insert_range                  two    65536  1.2       230
remove_range                  two    65536  1.2       230
toggle_range                  two    65536  1.2       360
contains_all_in_range         full   65536  1.2       180
contains_any_in_range         two    65536  1.2       180
count_in_range                two    65536  1.2       210
copy_range                    full   65536   17    190000
insert_range_of_all           two    65536   17    190000
remove_range_of_all           two    65536  4.2      1600
toggle_range_of_all           two    65536   17    180000
contains_all_in_range_of_all  full   65536   17    120000
contains_any_in_range_of_all  two    65536  2.6      1200
count_in_range_of_all         two    65536  2.6      1250
union_with                    many   65536   17     60000
union_with                    two    65536   17      6000
intersect_with                many   65536   17     80000
intersect_with                two    65536   17      5000
difference_with               two    65536   17      6000
symmetric_difference_with     two    65536   17      6000
is_subset                     many   65536   17    131000
is_subset                     two    65536   17      6000
is_disjoint                   two    65536   17     12000
union_changes                 many   65536   17     49000
union_changes                 two    65536   14     11300
intersection_changes          many   65536   17     49000
intersection_changes          two    65536   15     14500
difference_changes            many   65536   17     49000
difference_changes            two    65536   15     12700
symmetric_difference_changes  many   65536   17    110000
symmetric_difference_changes  two    65536  8.2      6600
union_with_difference         many   65536   17     95000
union_with_difference         two    65536    9      7700
copy_difference               many   65536   17     47000
copy_difference               two    65536   12     14700
union_of                      many   65536   17   1070000
union_of                      two    65536   17   1070000
intersection_of               many   65536   17   1070000
eq                            two    65536    4      2100
eq                            many   65536   17     49000
intersection_count            two    65536  2.7      1900
intersection_count_of_short   full   65536  1.2      9000
difference_count_of_short     full   65536  1.2      9000
union_count_of_short          two    65536  1.4      9600
union_count_of_short          full   65536    7     86000
is_subset_of_short            full   65536  1.2      9000
is_disjoint_of_short          two    65536  1.2      9000
eq_of_others                  two    65536  1.2      9000
eq_of_others                  many   65536  1.2      9000
less_of_others                two    65536  1.2      9000
close                         two       32  260  15000000
transitive_closure            two       32  340  12000000
reflexive_transitive_closure  two       32  330  12000000
dominators                    two       32   25    510000
transpose                     many      32  170    560000
transpose                     full      32   38    560000
solve                         two       64   18   3000000
solve_back                    two       64   18   3000000
END
)"

# Writes into a file how many instructions the program takes on these words, or nothing where it fails.
count() {
    valgrind --tool=callgrind --callgrind-out-file=/dev/null "$program" "${@:2}" 2>&1 > /dev/null \
        | sed -n 's/.*Collected : //p' > "$room/$1" || : > "$room/$1"
}

# The instructions of a turn, from the counts of two turns and of four. Nothing where one of them is missing.
a_turn() {
    local few many
    few="$(cat "$room/$1")"
    many="$(cat "$room/$2")"
    [ -z "$few" ] || [ -z "$many" ] || echo $(((many - few) / 2))
}

# Compares a row with its bounds.
judge() {
    local call="$1" shape="$2" n="$3" times="$4" most="$5" small large ratio
    local large_n=$((16 * n))
    count small2 "$call" "$shape" "$n" 2 &
    count small4 "$call" "$shape" "$n" 4 &
    count large2 "$call" "$shape" "$large_n" 2 &
    count large4 "$call" "$shape" "$large_n" 4 &
    wait
    small="$(a_turn small2 small4)"
    large="$(a_turn large2 large4)"
    if [ -z "$small" ] || [ -z "$large" ] || [ "$small" -eq 0 ]; then
        fail "$call of $shape: nothing was counted"
        return
    fi
    ratio="$(awk -v a="$small" -v b="$large" 'BEGIN { printf "%.2f", b / a }')"
    [ -z "$show" ] || echo "$call $shape: $small at $n, $large at $large_n, $ratio times"
    if awk -v ratio="$ratio" -v times="$times" 'BEGIN { exit !(ratio > times) }'; then
        fail "$call of $shape: at 16 n = $large_n it takes $ratio times as many instructions as at n, and may take $times"
    elif [ "$large" -gt "$most" ]; then
        fail "$call of $shape: at $large_n it takes $large instructions, and may take $most"
    else
        passed=$((passed + 1))
    fi
}

judge_all() {
    local call shape n times most
    while read -r call shape n times most; do
        judge "$call" "$shape" "$n" "$times" "$most"
    done <<< "$rows"
    echo "$passed passed, $failed failed"
    [ "$failed" -eq 0 ]
}

# Bash reads all of this before it begins, so an edit of this script meanwhile is for the next run.
{
    run_group judge_all < /dev/null
    exit
}
