#!/usr/bin/env -S bash -p
# Tries the scripts `bitset`, `look`, `add`, `gate`, `bindings/c/build`, `release` and `tests/callers.sh` in small
# repositories, with stand-ins for the toolchain's commands that prove nothing: what is built when, what stays of runs that
# are ended, and what is said. Then what those find who build over the packages and the headers of a release.
#   tests/scripts.sh           all of that, in parts that run side by side
#   tests/scripts.sh PART..    the parts that are named: each is a file of tests/scripts
#   tests/scripts.sh --real    instead `./bitset` with the real toolchain and a comment that changes, over the libraries
#                              as `rt ci` has just proved them here
# The last line is 'N passed, M failed'.
case $- in *p*) ;; *) exec bash -p "$0" "$@" ;; esac
set -uo pipefail
# shellcheck source=tools/start.sh
. "$(dirname "$(readlink -f "$0")")/../tools/start.sh"
# What the system's commands say is looked for in English.
export LC_ALL=C
here="$(dirname "$(readlink -f "${BASH_SOURCE[0]}")")"
top="$(dirname "$here")"
. "$top/tools/ending.sh"
# A locale in which a comma stands before a fraction, where there is one.
# shellcheck disable=SC2034  # what the parts read
comma="$(locale -a 2> /dev/null | grep -m 1 '^\(de_DE\|fr_FR\|tr_TR\)\.utf8$')"
passed=0
failed=0
for word in "$@"; do
    if [ "$#:$word" != 1:--real ] && [[ "$word" != [a-z]* || ! -f "$here/scripts/$word.sh" ]]; then
        echo 'usage: tests/scripts.sh [--real | PART..]' >&2
        exit 2
    fi
done
# Disks that are full, or from which no program runs, are mounted in a namespace that nothing else sees: any user may have
# one, where the system lets him.
if [ -z "${HAS_DISKS+is known}" ]; then
    export HAS_DISKS=''
    for words in --mount '--user --map-root-user --mount'; do
        # shellcheck disable=SC2086  # each word is one
        if unshare $words mount -t tmpfs none "$here/scripts" 2> /dev/null; then
            HAS_DISKS=yes exec unshare $words "$0" "$@"
        fi
    done
fi
room="$(mktemp -d)" || exit 1
passing+=("$room")

# Counts whether a command succeeds.
expect() {
    local what="$1"
    shift
    if "$@" > "$room/expected" 2>&1; then
        passed=$((passed + 1))
    else
        echo "FAILED: $what"
        failed=$((failed + 1))
    fi
}

not() { ! "$@"; }

# Waits until a command succeeds, for half a minute at most.
wait_until() {
    local turns
    for ((turns = 0; turns < 600; turns++)); do
        ! "$@" 2> /dev/null || return 0
        sleep 0.05
    done
    return 1
}

is_gone() { ! kill -0 "$1"; }

# Waits for what start_group started, and has its status in `ended`: none where it had to be killed.
finish() {
    ended=0
    {
        wait_until is_gone "$1" || kill -KILL -- "-$1"
        wait_group "$1" || ended=$?
    } 2> /dev/null
}

# Whether no process that a stand-in was still runs.
all_are_gone() {
    local process
    while read -r _ process _; do
        is_gone "$process" || return 1
    done < "$STAND_INS/calls"
}

ends_with() { [ "$ended" -eq "$1" ]; }
says() { grep -qF -e "$1" "$room/said"; }
wrote() { [ "$(cat "$room/wrote")" = "$1" ]; }
is_empty() { [ -z "$(ls -A "$1")" ]; }

# How often a stand-in was called with what begins so.
calls() { grep -c "^[a-z]* [0-9]* $1" "$STAND_INS/calls"; }
is_called() {
    local all
    IFS= read -r -d '' all < "$STAND_INS/calls" || true
    [[ $'\n'"$all" =~ $'\n'[a-z]*\ [0-9]*\ ${1/%\$/$'\n'} ]]
}

forget_calls() { : > "$STAND_INS/calls"; }
take_seconds() { echo "$1" > "$STAND_INS/seconds"; }

# Mounts a disk on a new folder, with these options of tmpfs, or says what is left out where none can be.
mount_disk() {
    mkdir "$2"
    if [ -n "$HAS_DISKS" ]; then
        mount -t tmpfs -o "$1" none "$2"
    else
        echo "left out, since no disk can be mounted here: $3"
        return 1
    fi
}

# Runs a command where options of bash and functions are exported that scripts do not have, and a file is named that it is
# to read first.
with_options() {
    local name functions=()
    for name in awk cat cd chmod command cp cut date dirname echo env exec exit export find flock git grep hash head kill local \
        make mapfile mkdir mktemp mv nproc printf pwd read readlink realpath rm sed set sha256sum shopt sleep sort source stat \
        tail tar test touch tr trap true type umask unset wait xargs; do
        functions+=("BASH_FUNC_$name%%=() { builtin echo \"the function $name of another\"; }")
    done
    builtin echo 'set -o noclobber -o noglob && export SHELLOPTS' > "$room/first"
    env SHELLOPTS=allexport:errexit:keyword:noclobber:noglob:nounset:onecmd:physical:posix:xtrace \
        BASHOPTS=extglob:failglob:lastpipe:nocasematch:xpg_echo BASH_ENV="$room/first" POSIXLY_CORRECT=1 GLOBIGNORE='*' \
        "${functions[@]}" "$@"
}

# Runs a command where `mktemp`, which it calls, adds a line to a script that runs then, and looks whether that is run too.
#   expect_no_edit SCRIPT COMMAND..
expect_no_edit() {
    mkdir -p "$room/edits"
    printf '%s\n' '#!/bin/sh' 'echo "touch \"\$ADDED.run\"" >> "$EDITED" && touch "$ADDED"' "exec $(type -P mktemp) \"\$@\"" \
        > "$room/edits/mktemp"
    chmod +x "$room/edits/mktemp"
    rm -f "$room/added" "$room/added.run"
    env EDITED="$1" ADDED="$room/added" PATH="$room/edits:$PATH" "${@:2}" < /dev/null > "$room/wrote" 2> "$room/said" || true
    expect "$1 is not edited as it runs" [ -e "$room/added" ]
    expect "an edit changes a run of $1" [ ! -e "$room/added.run" ]
    sed -i '$d' "$1"
}

# The stand-ins as a toolchain, whose commands are on the PATH.
set_up_toolchain() {
    export STAND_INS="$room/toolchain" TMPDIR="$room/temporary"
    mkdir -p "$STAND_INS/kit"/{bin,rlibs,toolchain/bin,toolchain/lib} "$TMPDIR"
    cp "$here/stand_ins"/r* "$STAND_INS/kit/bin"
    cp "$here/stand_ins/clang" "$STAND_INS/kit/toolchain/bin"
    echo 'kit of stand-ins' > "$STAND_INS/kit/KIT-ID"
    PATH="$STAND_INS/kit/bin:$PATH"
    take_seconds 0.1
    forget_calls
}

# Ends a script that works by a signal, and looks whether all that it started ends and its temporary files go.
#   ended_by_signal WHAT SIGNAL CALL COMMAND..    once a stand-in was called so
ended_by_signal() {
    local what="$1 by SIG$2" signal="$2" call="$3"
    shift 3
    forget_calls
    take_seconds 30
    # A test that runs under nohup, or behind, ignores some of the signals, and a script cannot undo that.
    start_group env --default-signal=HUP,INT,QUIT,TERM "$@" < /dev/null > "$room/wrote" 2> "$room/said"
    local run=$!
    expect "$what: it does not begin" wait_until is_called "$call"
    kill -s "$signal" "$run"
    finish "$run"
    expect "$what: it ends with $ended" ends_with $((128 + $(kill -l "$signal")))
    expect "$what: what it started is not ended" wait_until all_are_gone
    expect "$what: it leaves temporary files" is_empty "$TMPDIR"
    # What was not ended is not to be in the way of what is tried next.
    sed 's/^[a-z]* \([0-9]*\).*/\1/' "$STAND_INS/calls" | xargs -r kill -KILL 2> /dev/null
    rm -rf "${TMPDIR:?}"/*
    take_seconds 0.1
}

# Runs all parts side by side, the longest first, and counts what each says.
run_all() {
    local at status begun=() parts=(c_build bitset usage c_folder states waiting environment signals long_tests release gate packages
        callers others)
    for at in "${!parts[@]}"; do
        start_group "$here/scripts.sh" "${parts[at]}" < /dev/null > "$room/$at" 2>&1
        begun+=("$!")
    done
    for at in "${!begun[@]}"; do
        status=0
        wait_group "${begun[at]}" || status=$?
        if [[ "$(tail -n 1 "$room/$at")" =~ ^([0-9]+)' passed, '([0-9]+)' failed'$ ]]; then
            passed=$((passed + BASH_REMATCH[1]))
            failed=$((failed + BASH_REMATCH[2]))
            sed '$d' "$room/$at"
        else
            cat "$room/$at"
            expect "the tests of ${parts[at]} end with $status" false
        fi
    done
}

# Bash reads all of this before it begins, so an edit of this script meanwhile is for the next run.
{
    if [ $# -eq 0 ]; then
        run_all
    else
        [ "$1" = --real ] || set_up_toolchain
        # shellcheck source=tests/scripts/repositories.sh
        . "$here/scripts/repositories.sh"
        for part in "${@#--}"; do
            # shellcheck source=/dev/null
            . "$here/scripts/$part.sh"
        done
    fi
    echo "$passed passed, $failed failed"
    [ "$failed" -eq 0 ]
    exit
}
