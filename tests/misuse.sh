#!/usr/bin/env -S bash -p
# Tries each edit of `misuse/` on a copy of the crates' sources: the compiler must reject it, for the one reason that
# the edit names. Edits that only the prover rejects are in `edits/`, and two are with a crate.
# An edit has one line each of 'crate:', 'file:', 'old:', whose text occurs once in the file, 'new:' and 'says:', with
# which each error begins after its place. The last line is 'N passed, M failed'.
case $- in *p*) ;; *) exec bash -p "$0" "$@" ;; esac
set -uo pipefail
# shellcheck source=tools/start.sh
. "$(dirname "$(readlink -f "$0")")/../tools/start.sh"
here="$(dirname "$(readlink -f "${BASH_SOURCE[0]}")")"
top="$(dirname "$here")"
passed=0
failed=0
. "$top/tools/ending.sh"
make_room || exit 1

fail() {
    echo "FAILED: $1"
    failed=$((failed + 1))
}

# What the edit's line of this name has.
line_of() { sed -n "s/^$2: //p" "$1"; }

# Writes the edited text over the file, where the old text is in it once.
apply() {
    local file="$1" old="$2" new="$3" text rest
    text="$(cat "$file" && echo .)" || return 1
    text="${text%.}"
    rest="${text#*"$old"}"
    if [ "$rest" = "$text" ] || [[ "$rest" = *"$old"* ]]; then
        return 1
    fi
    printf '%s' "${text%%"$old"*}$new$rest" > "$file"
}

try_edit() {
    local edit="$1" name key crate file says said status errors other
    name="$(basename "$edit")"
    for key in crate file old new says; do
        if [ "$(grep -c "^$key: ." "$edit")" -ne 1 ]; then
            fail "$name: it has no line '$key:', or more than one"
            return
        fi
    done
    crate="$room/crates/$(line_of "$edit" crate)"
    file="$(line_of "$edit" file)"
    says="$(line_of "$edit" says)"
    (cd "$top" && tar cf - --exclude=out crates.txt crates) | tar xf - -C "$room"
    if ! apply "$crate/$file" "$(line_of "$edit" old)" "$(line_of "$edit" new)"; then
        fail "$name: its old text is not in $file, or more than once"
        return
    fi
    said="$(cd "$crate" && rt try --test < /dev/null 2>&1)"
    status=$?
    errors="$(grep ': error' <<< "$said")"
    other="$(sed 's/^\S*: //' <<< "$errors" | says="$says" awk 'index($0, ENVIRON["says"]) != 1')"
    if [ "$status" -ne 1 ] || [ -z "$errors" ]; then
        fail "$name: it is not refused by the compiler, but ends with status $status"
    elif [ -n "$other" ]; then
        fail "$name: it is refused for another reason: $other"
    else
        passed=$((passed + 1))
    fi
}

try_all() {
    for edit in "$here"/misuse/*.edit; do
        try_edit "$edit"
    done
    echo "$passed passed, $failed failed"
    [ "$failed" -eq 0 ]
}

# Bash reads all of this before it begins, so an edit of this script meanwhile is for the next run.
{
    run_group try_all < /dev/null
    exit
}
