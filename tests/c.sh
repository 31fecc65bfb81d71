#!/usr/bin/env -S bash -p
# Builds bindings/c/example.c over the library for C with the system's compilers, runs it, and runs it again with one
# request for memory after another failing; it also does the first over blocks of 32 bits, and with example.cc in C++.
# Bounds the memory that the calls that make a set may request, and makes random calls beside a table. Compares the
# prototypes of both headers with what the library exports, and these with the calls of BitSet and BitMatrix; and runs the
# Python module if there is a python3.
#   tests/c.sh [FOLDER]      over the library that bindings/c/build wrote into the folder; if none is given it is built,
#                            over the libraries as `rt ci` has just proved them here
# The last line is 'N passed, M failed'.
case $- in *p*) ;; *) exec bash -p "$0" "$@" ;; esac
set -uo pipefail
# shellcheck source=tools/start.sh
. "$(dirname "$(readlink -f "$0")")/../tools/start.sh"
here="$(dirname "$(readlink -f "${BASH_SOURCE[0]}")")"
top="$(dirname "$here")"
bindings="$top/bindings"
passed=0
failed=0
if [ $# -gt 1 ] || [[ "${1:-}" = -* ]]; then
    echo 'usage: tests/c.sh [FOLDER]' >&2
    exit 2
fi

. "$top/tools/ending.sh"
make_room || exit 1

finish() {
    echo "$passed passed, $failed failed"
    [ "$failed" -eq 0 ]
    exit
}

fail() {
    echo "FAILED: $1"
    failed=$((failed + 1))
}

pass() { passed=$((passed + 1)); }

# As the current folder one of its own, and in `library` the one with the library.
find_library() {
    if ! command -v cc > /dev/null; then
        fail 'there is no cc to build bindings/c/example.c with'
        finish
    fi
    if [ $# -gt 0 ]; then
        library="$(readlink -f "$1")"
    else
        library="$room/library"
        if ! "$bindings/c/build" "$library" --proved > "$room/said" 2>&1; then
            cat "$room/said"
            fail 'bindings/c/build builds no library'
            finish
        fi
    fi
    cd "$room" || exit 1

    # What the example must write, which is not taken from it.
    cp "$bindings/c/example.out" written
    : > nothing
    echo 'no memory' > refused
}

# Counts a run: whether it ended so, wrote what this file has and said what this one has.
judge() {
    local name="$1" status="$2" text="$3" said="$4"
    if [ "$ended" -ne "$status" ]; then
        fail "$name: it ended with status $ended, and not $status"
    elif ! cmp wrote "$text" || ! cmp said "$said"; then
        fail "$name: it wrote something else"
    else
        pass
    fi
}

run() {
    ended=0
    timeout --foreground 60 "$@" > wrote 2> said || ended=$?
}

# A program with this number in each name of a call, as in the header of other blocks.
over_blocks() {
    sed "s/bit_\(set\|matrix\)/bit_\1$1/g; s/BIT_\(SET\|MATRIX\)/BIT_\1$1/g" "$2"
}

warnings=(-Wall -Wextra -Werror -pedantic)

try_examples() {
    if cc -std=c99 "${warnings[@]}" -O2 -I"$library" "$bindings/c/example.c" "$library/libbit_set.a" -o example 2> said; then
        run ./example
        judge 'the example' 0 written nothing
    else
        cat said
        fail 'cc does not build the example'
        finish
    fi
    if cc -std=c99 -I"$library" "$bindings/c/example.c" -L"$library" -lbit_set -Wl,-rpath,"$library" -o shared 2> said; then
        run ./shared
        judge 'the example over the shared object' 0 written nothing
    else
        cat said
        fail 'cc does not build the example over the shared object'
    fi
    # The example reads the same where each name of a call is that of the other header.
    over_blocks 32 "$bindings/c/example.c" > example32.c
    if cc -std=c99 "${warnings[@]}" -O2 -I"$library" example32.c "$library/libbit_set.a" -o example32 2> said; then
        run ./example32
        judge 'the example over blocks of 32 bits' 0 written nothing
    else
        cat said
        fail 'cc does not build the example over blocks of 32 bits'
    fi
}

# Of what was not given back the address sanitizer says so, where the compiler has one.
watch_example() {
    echo 'int main(void) { return 0; }' > empty.c
    if cc -fsanitize=address empty.c -o empty 2> said && ./empty; then
        if cc -std=c99 -g -fsanitize=address -I"$library" "$bindings/c/example.c" "$library/libbit_set.a" -o watched; then
            run ./watched
            judge 'the example under the address sanitizer' 0 written nothing
        else
            fail 'cc does not build the example with the address sanitizer'
        fi
    fi
}

try_cpp() {
    for name in bit_set bit_set32 bit_roaring; do
        printf '#define %s_CHECKED\n#include "%s.h"\n' "${name^^}" "$name"
    done > all.cc
    for compiler in c++ clang++; do
        command -v "$compiler" > /dev/null || continue
        if "$compiler" -std=c++17 -fsyntax-only "${warnings[@]}" -I"$library" all.cc 2> said; then
            pass
        else
            cat said
            fail "the headers are none of C++ to $compiler"
        fi
    done
    if command -v c++ > /dev/null; then
        if c++ -std=c++17 "${warnings[@]}" -O2 -I"$library" "$bindings/c/example.cc" "$library/libbit_set.a" -o example_cc 2> said; then
            run ./example_cc
            judge 'the example in C++' 0 written nothing
        else
            cat said
            fail 'c++ does not build the example in C++'
        fi
        if c++ -std=c++17 "${warnings[@]}" -O2 -I"$library" -I"$here" "$here/roaring.cc" "$library/libbit_set.a" -o roaring_cc 2> said; then
            run ./roaring_cc
            judge 'the class of Roaring bitmaps' 0 nothing nothing
        else
            cat said
            fail 'c++ does not build tests/roaring.cc'
        fi
    fi
}

# A call that is given one set where it owes two, or a row that is not there, stops where it is asked to.
try_stops() {
    local name
    cat > twice.c << 'END'
#define BIT_SET_CHECKED
#include "bit_set.h"
int main(void) {
    bit_set *set = NULL;
    if (!bit_set_new(&set) || bit_set_insert(set, 5) != BIT_SET_YES)
        return 3;
    BIT_SET_FOR_EACH(member, set)
        if (member != 5)
            return 4;
    return bit_set_append(set, set);
}
END
    cat > past.c << 'END'
#define BIT_SET_CHECKED
#include "bit_set.h"
int main(void) {
    bit_matrix *matrix = NULL;
    if (!bit_matrix_new(&matrix, 2, 3) || !bit_matrix_insert(matrix, 1, 2))
        return 3;
    return bit_matrix_insert(matrix, 2, 1);
}
END
    echo 'bit_set_append: the call was given one set where it owes two' > stopped_twice
    echo 'bit_matrix_insert: there is no row 2' > stopped_past
    for name in twice past; do
        if cc -std=c99 "${warnings[@]}" -I"$library" "$name.c" "$library/libbit_set.a" -o "$name" 2> said; then
            # The shell that sees the signal says so on a stream of its own.
            (ulimit -c 0 && "./$name" 2> said) > wrote 2> ended_by
            ended=$?
            judge "a call that must stop: $name" 134 nothing "stopped_$name"
        else
            cat said
            fail 'cc does not build a program over the header with its checks'
        fi
    done
}

# Each request for memory failing in turn: nothing is written, and the status says so; past the last all is well.
try_requests() {
    local n requests
    if cc -O1 -shared -fPIC -o shim.so "$here/shim.c"; then
        for ((n = 1; n <= 1000; n++)); do
            rm -f counts
            # By a path that has none of the spaces that `room` may have.
            run env LD_PRELOAD=./shim.so SHIM_COUNTS=counts SHIM_FAIL="$n" ./example
            read -r requests _ < counts
            [ "$requests" -ge "$n" ] || break
            # The request that fails may be that of the C library for its output, which then goes out unbuffered.
            if [ "$ended" -eq 0 ]; then
                judge "request $n fails" 0 written nothing
            else
                judge "request $n fails" 3 nothing refused
            fi
        done
        judge 'past the last request' 0 written nothing
        [ "$n" -gt 3 ] || fail "the example asked for memory $((n - 1)) times only"
    else
        fail 'cc makes no library of tests/shim.c'
    fi
}

# The memory that each call that makes a set asks for, and what it leaves where it finds none; and random calls beside a
# table.
try_calls() {
    local by calls wrapped='-Wl,--wrap=malloc,--wrap=realloc,--wrap=free'
    for by in bit_set bit_set32; do
        for calls in calls matrix roaring roaring64; do
            over_blocks "${by#bit_set}" "$here/c_$calls.c" > "c_$calls.c"
            if cc -std=c99 "${warnings[@]}" -O2 -I"$library" -I"$here" "c_$calls.c" "$library/libbit_set.a" -o calls 2> said; then
                run ./calls
                judge "random calls of $by: $calls" 0 nothing nothing
            else
                cat said
                fail "cc does not build tests/c_$calls.c"
            fi
        done
        over_blocks "${by#bit_set}" "$here/c_requests.c" > requests.c
        if cc -std=c99 "${warnings[@]}" -O2 -I"$library" requests.c "$library/libbit_set.a" "$wrapped" -o requests 2> said; then
            run ./requests
            judge "the memory of calls that make a set or a matrix of $by" 0 nothing nothing
        else
            cat said
            fail 'cc does not build tests/c_requests.c'
        fi
    done
}

# The names that are declared are those that are exported.
compare_names() {
    LC_ALL=C sed -n '/^static/d; s/^[a-z].*\(bit_\(set\|matrix\|roaring\)\(32\|64\)\?_[a-z_]*\)(.*/\1/p' \
        "$library"/bit_{set,set32,roaring}.h | sort > declared
    nm -D --defined-only "$library/libbit_set.so" | sed -n 's/.* T //p' | sort > exported
    if [ -s declared ] && cmp declared exported; then
        pass
    else
        diff declared exported
        fail 'the headers declare other calls than the library has'
    fi
}

try_python() {
    if command -v python3 > /dev/null; then
        # The calls that the header and the packages have, or a reason why they have not.
        if PYTHONUTF8=1 python3 -B "$here/c_surface.py" "$top" > said 2>&1; then
            pass
        else
            cat said
            fail 'the header or a package lacks a call'
        fi
        if [ ! -f "$(python3 -c 'import sysconfig; print(sysconfig.get_path("include"))')/Python.h" ]; then
            echo 'left out: the Python module, without the headers of Python'
        elif "$bindings/python/build" "$library" module > said 2>&1; then
            # The headers of Python 3.8 have this for it.
            if CC='cc -DPyMODINIT_FUNC=PyObject*' "$bindings/python/build" "$library" older > said 2>&1 \
                && nm -D --defined-only older/bit_set/*.so | grep -q ' PyInit__bit_set$'; then
                pass
            else
                cat said
                fail 'the Python module cannot be loaded where the headers of Python 3.8 built it'
            fi
            for file in tests roaring_tests roaring64_tests faults; do
                if PYTHONPATH=module python3 -B "$bindings/python/$file.py" > said 2>&1; then
                    pass
                else
                    cat said
                    fail "the Python module fails bindings/python/$file.py"
                fi
            done
        else
            cat said
            fail 'the Python module is not built'
        fi
    fi
}

try_all() {
    find_library "$@"
    try_examples
    watch_example
    try_cpp
    try_stops
    try_requests
    try_calls
    compare_names
    try_python
    finish
}

# Bash reads all of this before it begins, so an edit of this script meanwhile is for the next run.
{
    run_group try_all "$@" < /dev/null
    exit
}
