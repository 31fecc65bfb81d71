#!/usr/bin/env -S bash -p
# Tries the output of ./release where there is no toolchain and no network: in roots of Debian 11, 12 and 13, with musl,
# and as programs for aarch64 under qemu. It installs the packages, builds the examples, runs the tests of Python and Rust, and
# makes a million random calls beside a plain table for each processor. The roots and the other kinds of system are tried
# beside each other. It is not a part of the gate.
#   tests/release.sh FOLDER [ROOTS]      ROOTS keeps the roots, which debootstrap makes if they do not exist
# It must be run by root, for chroot. It says what it cannot try because a program is missing. The last line is
# 'N passed, M failed'.
# shellcheck disable=SC2034,SC2154  # what the parts read and set
case $- in *p*) ;; *) exec bash -p "$0" "$@" ;; esac
set -uo pipefail
# shellcheck source=tools/start.sh
. "$(dirname "$(readlink -f "$0")")/../tools/start.sh"
here="$(dirname "$(readlink -f "${BASH_SOURCE[0]}")")"
passed=0
failed=0

if [ $# -lt 1 ] || [ $# -gt 2 ] || [[ "$1" = -* ]]; then
    echo 'usage: tests/release.sh FOLDER [ROOTS]' >&2
    exit 2
fi
if [ ! -f "$1/SHA256SUMS" ]; then
    echo "tests/release.sh: ./release wrote nothing into $1" >&2
    exit 2
fi
release="$(readlink -f "$1")"
roots="${2:-${XDG_CACHE_HOME:-${HOME:-${TMPDIR:-/tmp}}/.cache}/bit_set_roots}"
mkdir -p "$roots" || exit 1
roots="$(readlink -f "$roots")"
# shellcheck source=../tools/ending.sh
. "$here/../tools/ending.sh"
make_room || exit 1
version="$(basename "$release"/bit-set-sys-*.crate .crate)"
version="${version#bit-set-sys-}"
# Some twelve calls each.
rounds=85000
# Cargo itself, where the command is one that chooses a version.
cargo="$(rustup which cargo 2> /dev/null)" || cargo="$(command -v cargo)"
# What runs here finds no toolchain either.
path="/usr/bin:/bin${cargo:+:${cargo%/*}}"

# Counts whether a command succeeds, and shows what it says where it does not.
try() {
    local what="$1"
    shift
    if "$@" > "$room/said" 2>&1 < /dev/null; then
        echo "passed: $what"
        passed=$((passed + 1))
    else
        tail -n 20 "$room/said"
        echo "FAILED: $what"
        failed=$((failed + 1))
    fi
}

# Says what cannot be tried here, and again at the end.
not_tried="$room/not_tried"
left_out() { echo "left out: $1" | tee -a "$not_tried"; }
has() { command -v "$1" > /dev/null; }

# Runs a command here without the toolchain and without a network.
bare() { unshare --net env -i PATH="$path" HOME="$room" TMPDIR="$room" LC_ALL=C.UTF-8 "$@"; }

# Runs lines of shell in the root that is tried, in a folder with what was released and its source.
inside() {
    unshare --net chroot "$root" env -i PATH=/usr/sbin:/usr/bin:/sbin:/bin HOME=/root LC_ALL=C.UTF-8 \
        VERSION="$version" ROUNDS="$rounds" sh -euc "cd /try; $1"
}

# What runs a program for aarch64 here, over a root or what the cross compiler has.
on_arm() { bare qemu-aarch64-static -L "${sysroot:-/usr/aarch64-linux-gnu}" "$@"; }

for part in files readme roots machines again; do
    # shellcheck source=/dev/null
    . "$here/release/$part.sh"
done
# The parts that run beside each other, and the processes that run them.
parts=()
runs=()

# Runs a part in a folder of its own, and says last what it counted.
run_part() {
    room="$room/$1"
    mkdir "$room"
    passed=0
    failed=0
    "${@:2}"
    echo "$passed $failed"
}

#   begin NAME COMMAND..
begin() {
    start_group run_part "$@" < /dev/null > "$room/$1.said" 2>&1
    parts+=("$1")
    runs+=("$!")
}

# Waits for each, shows what it said, and adds up what it counted. One that counted nothing has failed.
finish() {
    local at counts
    for at in "${!parts[@]}"; do
        wait_group "${runs[at]}"
        sed '$d' "$room/${parts[at]}.said"
        counts="$(tail -n 1 "$room/${parts[at]}.said")"
        if [[ "$counts" =~ ^([0-9]+)\ ([0-9]+)$ ]]; then
            passed=$((passed + BASH_REMATCH[1]))
            failed=$((failed + BASH_REMATCH[2]))
        else
            echo "$counts"
            echo "FAILED: ${parts[at]} did not end"
            failed=$((failed + 1))
        fi
    done
}

# Bash reads all of this before it begins, so an edit of this script meanwhile is for the next run.
{
    try_files
    begin 13 try_root 13 trixie cargo,gcc-aarch64-linux-gnu,libc6-dev-arm64-cross
    begin arm try_arm
    begin 12 try_root 12 bookworm ''
    begin 11 try_root 11 bullseye ''
    begin here try_here
    begin musl try_musl
    begin again try_again
    finish
    [ ! -e "$not_tried" ] || sort "$not_tried"
    echo "$passed passed, $failed failed"
    [ "$failed" -eq 0 ]
    exit
}
