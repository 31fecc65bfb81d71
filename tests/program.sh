#!/usr/bin/env -S bash -p
# Runs the built program at the given path as a shell does, and checks its status, its output and its standard error: no
# contract says what `main` does with them. The last line is 'N passed, M failed'.
case $- in *p*) ;; *) exec bash -p "$0" "$@" ;; esac
set -uo pipefail
# shellcheck source=tools/start.sh
. "$(dirname "$(readlink -f "$0")")/../tools/start.sh"
if [ $# -ne 1 ]; then
    echo 'usage: tests/program.sh BITSET' >&2
    exit 2
fi
program="$(readlink -f "$1")"
top="$(dirname "$(dirname "$(readlink -f "${BASH_SOURCE[0]}")")")"
stored="$top/crates/bitset"
examples="$top/examples"
usage='usage: bitset [u8|u16|u32|u64|usize|u128]'
passed=0
failed=0

# In a folder of its own, where each run leaves the files `wrote` and `said`, and `rest` where it leaves input.
. "$top/tools/ending.sh"
make_room || exit 1
cd "$room" || exit 1
: > nothing

# What no run leaves, so that a case which keeps no output is not judged by that of the one before.
forget() {
    for file in wrote said rest; do
        echo 'no run left this' > "$file"
    done
}

fail() {
    echo "FAILED: $1"
    failed=$((failed + 1))
}

# Counts the run before: whether it had this status, wrote what this file has and said this line, or nothing. Where its
# output or its errors cannot be kept, '-' is in their place.
judge() {
    local name="$1" ended="$2" status="$3" text="$4" line="$5"
    printf '%s' "${line:+$line$'\n'}" > line
    if [ "$ended" -ne "$status" ]; then
        fail "$name: it ended with status $ended, and not $status"
    elif [ "$text" != - ] && ! cmp wrote "$text"; then
        fail "$name: it wrote something else"
    elif [ "$line" != - ] && ! cmp said line; then
        fail "$name: it did not say '$line'"
    else
        passed=$((passed + 1))
    fi
    forget
}

bitset() { timeout --foreground 60 "$program" "$@"; }

stored_run() { bitset "$@" < "$stored/stdin" > wrote 2> said; }

if ! [ -x "$program" ]; then
    fail "there is no program $1"
    echo "$passed passed, $failed failed"
    exit 1
fi

try_words() {
    stored_run
    judge 'no word' $? 0 "$stored/stdout" ''
    for word in u8 u16 u32 u64 usize u128; do
        stored_run "$word"
        judge "$word" $? 0 "$stored/stdout" ''
        bitset "$word" < "$examples/sets.txt" > wrote 2> said
        judge "most verbs under $word" $? 0 "$examples/sets.replies.txt" ''
        bitset "$word" < "$examples/parts.txt" > wrote 2> said
        judge "append and split_off under $word" $? 0 "$examples/parts.replies.txt" ''
        echo 'reserve a 18446744073709551615' | bitset "$word" > wrote 2> said
        judge "room that no memory has, under $word" $? 3 nothing 'memory refused'
    done
    for word in u9 U8 u8x u '' --help; do
        stored_run "$word"
        judge "the word '$word'" $? 2 nothing "$usage"
    done
    for words in 'u8 u8' 'u128 u8' 'u9 u8' 'u8 u9' 'usize x' 'u8 u16 u32' 'u32 u32 u32'; do
        # shellcheck disable=SC2086  # each word is one
        stored_run $words
        judge "the words $words" $? 2 nothing "$usage"
    done
    stored_run $'\xff'
    judge 'a word that is no UTF-8' $? 3 nothing 'memory refused'
}

# A run that has no use for its input leaves it to the next.
try_unread() {
    {
        bitset u9 > wrote 2> said
        ended=$?
        cat > rest
    } < "$stored/stdin"
    if cmp rest "$stored/stdin"; then
        judge 'input beside a wrong word' "$ended" 2 nothing "$usage"
    else
        fail 'input beside a wrong word: it took some of it'
        forget
    fi
}

try_inputs() {
    bitset < nothing > wrote 2> said
    judge 'empty input' $? 0 nothing ''
    echo 'insert a 18446744073709551614' | bitset > wrote 2> said
    judge 'a set that no memory holds' $? 3 nothing 'memory refused'

    yes '' | head -c 1048576 > lines
    yes 'bad command' | head -n 1048576 > replies
    bitset < lines > wrote 2> said
    judge '1,048,576 bytes' $? 0 replies ''
    echo >> lines
    bitset < lines > wrote 2> said
    judge '1,048,577 bytes' $? 5 nothing 'input too large'
}

try_streams() {
    bitset < . > wrote 2> said
    judge 'a folder as input' $? 4 nothing 'read failed'
    bitset <&- > wrote 2> said
    judge 'a closed standard input' $? 4 nothing 'read failed'
    bitset < "$stored/stdin" > /dev/full 2> said
    judge 'a full disk' $? 4 - 'write failed'
    bitset < "$stored/stdin" >&- 2> said
    judge 'a closed standard output' $? 4 - 'write failed'
    bitset u9 < "$stored/stdin" > wrote 2>&-
    judge 'a closed standard error' $? 2 nothing -
}

try_all() {
    forget
    try_words
    try_unread
    try_inputs
    try_streams
    echo "$passed passed, $failed failed"
    [ "$failed" -eq 0 ]
}

# Bash reads all of this before it begins, so an edit of this script meanwhile is for the next run.
{
    run_group try_all < /dev/null
    exit
}
