#!/usr/bin/env -S bash -p
# Checks whether the program `bitset` still compiles without the modules that left_out.txt names, as `./bitset` builds it, and
# whether no proof that is left names a file of lemmas that is not: nothing is proved. The last line is 'N passed, M failed'.
case $- in *p*) ;; *) exec bash -p "$0" "$@" ;; esac
set -uo pipefail
# shellcheck source=tools/start.sh
. "$(dirname "$(readlink -f "$0")")/../tools/start.sh"
top="$(dirname "$(dirname "$(readlink -f "${BASH_SOURCE[0]}")")")"
kit="$(dirname "$(rt doc | head -n 1)")"
. "$top/tools/ending.sh"
make_room || exit 1

# What a crate's line in crates.txt names.
named_by() {
    sed -n "s/#.*//; s/^$1\( [^:]*\)\{0,1\}://p" "$top/crates.txt"
}

# What the compiler is given of each library: those of the toolchain are built, and those here are sources.
words=()
declare -A seen=()
look_below() {
    local name used=std
    for name in $(named_by "$1"); do
        used+=",$name"
        [ -z "${seen[$name]:-}" ] || continue
        seen[$name]=1
        if [ -d "$top/crates/$name" ]; then
            look_below "$name"
        else
            words+=(--extern "$name=$kit/rlibs/$name.rlib")
        fi
    done
    "$top/tools/needed" "$1" "$room/$1"
    if [ "$1" != bitset ]; then
        words+=(--lib "$1:$used=../$1/src/lib.rt")
    fi
}

# Whether nothing that is left of a crate names those of its lemmas that are left out.
has_lemmas() {
    local crate names name status=0
    while IFS=: read -r crate names; do
        for name in $names; do
            if grep -rlw --include='*.antt' --include='*.rt' -e "$name" "$room/$crate"; then
                echo "FAILED: these name $name, which left_out.txt leaves out"
                status=1
            fi
        done
    done < <(sed -n 's|/proofs/Lib[.]antt:|:|p' "$top/tools/left_out.txt")
    return "$status"
}

try_all() {
    local failed=0
    look_below bitset
    has_lemmas || failed=1
    cd "$room/bitset" || exit 1
    if rattle check --crate-name bitset --only '' --extern "std=$kit/rlibs/std.rlib" "${words[@]}" \
        -L "dependency=$kit/rlibs" --antt-project "$kit/rattle/logic/antt-project.json" --logic-built "$kit/logic_built" \
        src/main.rt > "$room/said" 2>&1; then
        echo "$((2 - failed)) passed, $failed failed"
    else
        cat "$room/said"
        echo 'FAILED: without what left_out.txt names the program does not compile'
        failed=$((failed + 1))
        echo "$((2 - failed)) passed, $failed failed"
    fi
    [ "$failed" -eq 0 ]
}

# Bash reads all of this before it begins, so an edit of this script meanwhile is for the next run.
{
    run_group try_all < /dev/null
    exit
}
