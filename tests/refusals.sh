#!/usr/bin/env -S bash -p
# Runs the three built programs at the given paths, `refusals`, `roaring_refusals` and `bitset`, with `shim.c` before the C
# library: each call of the first two with one request for memory after another failing, and bounded by the requests and
# bytes that its line allows; the third in the same way, and with one read or write after another failing. What `bitset`
# must write is stated here, and not taken from it. The last line is 'N passed, M failed'.
case $- in *p*) ;; *) exec bash -p "$0" "$@" ;; esac
set -uo pipefail
# shellcheck source=tools/start.sh
. "$(dirname "$(readlink -f "$0")")/../tools/start.sh"
if [ $# -ne 3 ]; then
    echo 'usage: tests/refusals.sh REFUSALS ROARING_REFUSALS BITSET' >&2
    exit 2
fi
refusals="$(readlink -f "$1")"
roaring_refusals="$(readlink -f "$2")"
bitset="$(readlink -f "$3")"
here="$(dirname "$(readlink -f "${BASH_SOURCE[0]}")")"
top="$(dirname "$here")"
crates="$top/crates"
# No run asks for memory so often.
most=1000
passed=0
failed=0

finish() {
    echo "$passed passed, $failed failed"
    [ "$failed" -eq 0 ]
    exit
}

fail() {
    echo "FAILED: $1"
    failed=$((failed + 1))
}

# In a folder of its own, where each run leaves the files `wrote`, `said` and `counts`.
. "$top/tools/ending.sh"
make_room || exit 1
if ! command -v cc > /dev/null; then
    fail 'there is no cc to make a library of tests/shim.c with'
    finish
fi
if ! cc -O1 -shared -fPIC -o "$room/shim.so" "$here/shim.c"; then
    fail 'cc makes no library of tests/shim.c'
    finish
fi
for program in "$refusals" "$roaring_refusals" "$bitset"; do
    if ! [ -x "$program" ]; then
        fail "there is no program $program"
        finish
    fi
done
cd "$room" || exit 1
: | tee nothing > wrote

# Runs a program behind the shim, with these of the shim's variables before it, and keeps its status, the counts, and
# the bytes of each request. The shim's path has none of the spaces that `room` may have.
shimmed() {
    rm -f counts
    timeout --foreground 60 env LD_PRELOAD=./shim.so SHIM_COUNTS=counts "$@" > wrote 2> said
    status=$?
    requests=-1
    reads=-1
    writes=-1
    bytes=-1
    sizes=()
    if [ -e counts ]; then
        read -r requests reads writes bytes < counts
        mapfile -s 1 -t sizes < counts
    fi
}

# Counts the run before: whether it had this status, wrote what this file has, said this line, or nothing, and came
# by counts of which this is so.
judge() {
    local name="$1" wanted="$2" text="$3" line="$4" counts="$5"
    printf '%s' "${line:+$line$'\n'}" > line
    if [ "$status" -ne "$wanted" ]; then
        fail "$name: it ended with status $status, and not $wanted"
    elif ! cmp wrote "$text"; then
        fail "$name: it wrote something else"
    elif ! cmp said line; then
        fail "$name: it did not say '$line'"
    elif ! (($counts)); then
        fail "$name: of $requests requests for $bytes bytes, $reads reads and $writes writes it is not so that $counts"
    else
        passed=$((passed + 1))
        return 0
    fi
    return 1
}

# One call of a program like `refusals`, which judges it: where all of the call's requests fail, and then one after another,
# and one past them. A call that takes no memory makes no request; any other fails where all do. Past its last request
# none failed, and then it made no more than its line allows; one that fails may be made once more, with less. One of a
# bit vector that may make two does make two, so that either of its growths fails alone; of few blocks no summary is
# stored, and then it makes one.
sweep() {
    local program="$1" type="$2" call="$3" most_requests="$4" most_bytes="$5" name="$2 $3" ending=failed n line
    [ "$most_requests" -gt 0 ] || ending=returned
    for ((n = 0; n <= most; n++)); do
        shimmed SHIM_CALL=1 SHIM_FAIL="$n" "$program" "$type" "$call"
        line="$(< wrote)"
        if [ "$status" -ne 0 ] || [ -s said ]; then
            fail "$name: at request $n: status $status, '$line', and it said '$(< said)'"
            return
        elif [ "$n" -eq 0 ] && [ "${line##* }" != "$ending" ]; then
            fail "$name: where all requests fail: '$line'"
            return
        elif ((requests < 0 || requests > 2 * most_requests || bytes > 2 * most_bytes)); then
            fail "$name: at request $n it made $requests requests for $bytes bytes: ${sizes[*]}"
            return
        elif [ "$requests" -lt "$n" ]; then
            break
        fi
        passed=$((passed + 1))
    done
    if [ "$n" -gt "$most" ] || [ "${line##* }" != returned ]; then
        fail "$name: past its last request: '$line'"
    elif ((requests > most_requests || bytes > most_bytes)); then
        fail "$name: it made $requests requests for $bytes bytes: ${sizes[*]}"
    elif [[ "$call" = bits_* && "$most_requests" -eq 2 && "$requests" -lt 2 ]]; then
        fail "$name: the blocks and their summary did not both ask for memory"
    else
        passed=$((passed + 1))
    fi
}

# Each call of a program that its stored run has.
sweep_all() {
    local program="$1" stored="$2" known=0 type call how
    while read -r type call how; do
        if [ "$how" = 'without memory: returned' ]; then
            sweep "$program" "$type" "$call" 0 0
        elif [[ "$how" =~ ^'requests<='([1-9][0-9]*)' bytes<='([0-9]+)': returned'$ ]]; then
            sweep "$program" "$type" "$call" "${BASH_REMATCH[1]}" "${BASH_REMATCH[2]}"
        else
            fail "$stored has a line '$type $call $how'"
        fi
        known=$((known + 1))
    done < "$stored"
    [ "$known" -gt 0 ] || fail "$stored has no calls"
    shimmed "$program"
    judge "all calls of $stored" 0 "$stored" '' 'requests > 0'
}

# The whole program, where one of its requests after another fails: then nothing is written.
try_requests() {
    local word all n
    cat > short << 'END'
extend a 3 447
insert b 5000
copy a c
union_with a b
symmetric_difference_with c b
items a
intersection a b
rest iter a 1
reserve a 9000
reserve_exact b 9000
shrink a
END
    cat > replies << 'END'
ok
true
ok
ok
ok
{3, 447, 5000}
{5000}
2 {447, 5000}
ok
ok
ok
END
    for word in u8 u32 u64 u128; do
        shimmed "$bitset" "$word" < short
        judge "$word: no request fails" 0 replies '' 'requests > 1 && writes > 0' || continue
        # Where a summary is stored, the last of them is for the smaller one of the set that is shrunk. Where it fails the
        # capacity is that of the blocks already, so the shrink has done what it is for.
        all=0
        [[ "$word" != u@(8|32) ]] || all="$requests"
        for ((n = 1; n <= most; n++)); do
            shimmed SHIM_FAIL="$n" "$bitset" "$word" < short
            if [ "$requests" -lt "$n" ]; then
                break
            elif [ "$n" -eq "$all" ]; then
                judge "$word: the last request fails" 0 replies '' 'requests == n && writes > 0' || break
            elif [ "$status" -eq 0 ]; then
                judge "$word: request $n fails, and another is made for it" 0 replies '' 'requests > n' || break
            else
                judge "$word: request $n fails" 3 nothing 'memory refused' 'writes == 0' || break
            fi
        done
        judge "$word: past the last request" 0 replies '' 'n > 1 && requests == n - 1 && writes > 0'
    done
}

# Each word has its own type of blocks: capacity for 8,000,000 numbers is a million bytes of blocks, and a bit for each of
# these blocks, in blocks of the same type. Nothing else is so large. `u64` and `usize` have blocks of one size. With no
# word it is `u32`.
try_sizes() {
    local word summary words large
    echo ok > replies
    while read -r word summary; do
        words=("$word")
        [ "$word" != none ] || words=()
        shimmed "$bitset" "${words[@]}" <<< 'reserve a 8000000'
        judge "$word: capacity for 8,000,000 numbers" 0 replies '' 'requests > 0' || continue
        large="$(printf '%s\n' "${sizes[@]}" | awk '$1 > 4096' | sort -n | tr '\n' ' ')"
        if [ "$large" = "$summary 1000000 " ]; then
            passed=$((passed + 1))
        else
            fail "$word: capacity for 8,000,000 numbers: its large requests have these bytes: $large"
        fi
    done << 'END'
none 31252
u8 125000
u16 62500
u32 31252
u64 15632
usize 15632
u128 7824
END
}

# A line that needs no memory takes none: a thousand ask for no more than one, but for the input of 13,000 bytes and the
# output of 6,000. Each of these doubles, the first from a read of 8,192 bytes, and the second from 8 bytes.
try_no_memory() {
    local no_more
    echo 'contains a 1' > contains
    echo false > replies
    shimmed "$bitset" < contains
    judge 'a line that needs no memory' 0 replies '' 'requests > 0'
    no_more="requests <= $requests + 1 + 10 && bytes <= $bytes + 4 * 13000 + 4 * 6000"
    yes 'contains a 1' | head -n 1000 > contains
    yes false | head -n 1000 > replies
    shimmed "$bitset" < contains
    judge 'a thousand lines that need no memory' 0 replies '' "requests > 0 && $no_more"
}

# What the four commands of the lines below reply, of which the last may be cut short.
replies_to() {
    awk '
        /^insert a [0-9]+$/ { print(($3 in kept) ? "false" : "true"); kept[$3]; next }
        $0 == "count a" { count = 0; for (number in kept) count++; print count; next }
        /^remove b [0-9]+$/ { print "false"; next }
        /^truncate c [0-9]+$/ { print "ok"; next }
        { print "bad command" }
    '
}

# Each of its reads otherwise, which are of 8192 bytes at most. One that gives no byte is the end of the input.
try_reads() {
    local number n error calls
    for ((number = 1; number <= 500; number++)); do
        printf '%s\n' "insert a $number" 'count a' "remove b $number" "truncate c $number"
    done > lines
    replies_to < lines > replies
    shimmed "$bitset" < lines
    judge 'each read and write as ever' 0 replies '' 'reads > 3 && writes > 0'
    calls="$reads"
    for ((n = 1; n <= calls; n++)); do
        for error in EIO EINTR ENOSPC; do
            shimmed SHIM_READ="$n:$error" "$bitset" < lines
            judge "$error at read $n" 4 nothing 'read failed' 'reads == n && writes == 0'
        done
        shimmed SHIM_READ="$n:short" "$bitset" < lines
        judge "a short read $n" 0 replies '' 'reads >= calls'
        head -c $(((n - 1) * 8192)) lines | replies_to > front
        shimmed SHIM_READ="$n:0" "$bitset" < lines
        judge "no byte at read $n" 0 front '' 'reads == n'
    done
    shimmed SHIM_READ=0:short "$bitset" < lines
    judge 'each read short' 0 replies '' "reads == $(wc -c < lines) + 1"
    shimmed SHIM_READ=0:short "$bitset" < <(yes '')
    judge 'each read short, with no end' 5 nothing 'input too large' 'reads == 1048577 && writes == 0'
}

# Each of its writes otherwise, which are kept to 3000 bytes here. What was written is a beginning.
try_writes() {
    local n error calls
    shimmed SHIM_PIECE=3000 "$bitset" < lines
    judge 'each write in pieces' 0 replies '' 'writes > 2'
    calls="$writes"
    for ((n = 1; n <= calls; n++)); do
        head -c $(((n - 1) * 3000)) replies > front
        for error in EIO EINTR ENOSPC 0; do
            shimmed SHIM_PIECE=3000 SHIM_WRITE="$n:$error" "$bitset" < lines
            judge "$error at write $n" 4 front 'write failed' 'writes == n'
        done
        shimmed SHIM_PIECE=3000 SHIM_WRITE="$n:short" "$bitset" < lines
        judge "a short write $n" 0 replies '' 'writes >= calls'
    done
    shimmed SHIM_WRITE=0:short "$bitset" < lines
    judge 'each write short' 0 replies '' "writes == $(wc -c < replies)"
}

try_all() {
    sweep_all "$refusals" "$crates/refusals/stdout"
    sweep_all "$roaring_refusals" "$crates/roaring_refusals/stdout"
    try_requests
    try_sizes
    try_no_memory
    try_reads
    try_writes
    finish
}

# Bash reads all of this before it begins, so an edit of this script meanwhile is for the next run.
{
    run_group try_all < /dev/null
    exit
}
