# What `bitset` and `look` share: each sources this by the path of this file from where it stands itself, has `begin` read
# its words, and then runs the program by one of the last two functions. To be sourced.
# shellcheck shell=bash disable=SC2154
# With no process, since most runs of `bitset` have nothing else to wait for.
root="${BASH_SOURCE[0]%tools/run.sh}"
[[ "$root" = /* ]] || root="$PWD/${root#./}"
root="${root%/}"
# shellcheck source=tools/start.sh
. "$root/tools/start.sh"
# Where the program is, and `stamp`: how many files and folders it is made of, a line for each, and what `stamp` wrote of them.
built="$root/out"

stop() {
    echo "${0##*/}: $1" >&2
    exit "${2:-1}"
}

# Where the words are --help alone, writes the usage, which ends with what `usage` has of this script, and ends.
#   begin WORD..
begin() {
    if [ "$*" = --help ]; then
        echo "usage: ./${0##*/} [u8|u16|u32|u64|usize|u128] < FILE
Runs the program bitset on standard input over blocks of that type, u32 where none is given. crates/bitset/README.md lists
the commands that a line may have, and with which status the program ends.
$usage"
        exit
    fi
    # Who types at a terminal and has given no input may look for the commands.
    if [ -t 0 ]; then
        echo "${0##*/}: reads commands from standard input, until end of file (Ctrl-D); $root/crates/bitset/README.md lists them" >&2
    fi
}

# Whether the program is that of the last build, and all that it was made of too. The first two files are the toolchain's
# commands: without any on the PATH they are those of the last build.
is_stamped() {
    local count parts
    [ -x "$built/bitset" ] && [ -f "$built/stamp" ] || return
    { read -r count && mapfile -t -n "$count" parts; } < "$built/stamp" || return
    hash rt 2> /dev/null || true
    hash rattle 2> /dev/null || true
    [ "${BASH_CMDS[rt]:-${parts[0]}}" = "${parts[0]}" ] && [ "${BASH_CMDS[rattle]:-${parts[1]}}" = "${parts[1]}" ] || return
    # The text is too long for Bash to read and compare in a few milliseconds.
    { printf '%s\n' "$count" "${parts[@]}" && stamp "${parts[@]}"; } 2> /dev/null | cmp -s - "$built/stamp"
}

# Keeps the input, of which the program reads no more than one byte past the greatest length.
read_input() {
    hold_signals
    { head -c 1048577 <&0 > "$room/input" & } 2> /dev/null
    groups[$!]=1
    heed_signals
    wait_group "$!"
}

# Shows what was said as the program ran. The lines of rt itself are of use only where the program did not end by itself.
show_said() {
    if grep -q '^run=ended ' "$room/said"; then
        grep -v -e '^checked: ended ' -e '^run=ended ' "$room/said" >&2
    else
        cat "$room/said" >&2
    fi
}

# Ends as the program that is proved, which is built first where it is not that of the last build.
#   run_proved WORD..
run_proved() {
    # shellcheck source=tools/copy.sh
    . "$root/tools/copy.sh"
    # The program's input and output, which may be closed, are for it alone.
    if ! is_stamped < /dev/null; then
        # shellcheck source=tools/program.sh
        . "$root/tools/program.sh"
        build < /dev/null >&2
    fi
    shopt -s execfail
    exec "$built/bitset" "$@" || stop "$built/bitset cannot be run"
}

# Has the toolchain run the sources as they are, with checks at run time, and ends as the program does.
#   run_unproved WORD..
run_unproved() {
    local status=0 is_read=1
    command -v rt > /dev/null || stop "the toolchain's command rt is not on the PATH" 127
    # shellcheck source=tools/ending.sh
    . "$root/tools/ending.sh"
    make_room || exit 1
    if ! read_input 2> /dev/null; then
        # The input may be well, and the disk full.
        { echo > "$room/more"; } 2> /dev/null || stop "nothing more can be written into ${room%/*}"
        : > "$room/input"
        is_read=''
    fi
    cd "$root/crates/bitset" || exit 1
    echo "${0##*/}: nothing is proved by this run, which takes about a minute; ./bitset proves the program first" >&2
    run_group rt try -- "$@" < "$room/input" > "$room/wrote" 2> "$room/said" || status=$?
    show_said
    # What cannot be read or written here would fail so in the program, unless it had failed before.
    if [ -z "$is_read" ] && [ "$status" -eq 0 ]; then
        echo 'read failed' >&2
        status=4
    elif [ -s "$room/wrote" ] && ! cat "$room/wrote" 2> /dev/null && [ "$status" -eq 0 ]; then
        echo 'write failed' >&2
        status=4
    fi
    exit "$status"
}
