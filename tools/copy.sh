# Copies of sources, as they are at one moment. To be sourced, after `root` is set to the top of the repository. A part is a
# folder by its path from there, as in crates/bit_set/src, of which sources alone count; or a file, whose path begins with
# ./ or with /. What an editor keeps beside a source is no source.
# shellcheck shell=bash disable=SC2154

# Runs find on the files of parts, from the top, in place of a subshell. A link counts for what it leads to.
#   find_files PART.. -- WORD..
find_files() {
    local parts=()
    until [ "$1" = -- ]; do
        parts+=("$1")
        shift
    done
    shift
    cd "$root" && LC_ALL=C exec find -L "${parts[@]}" -type f ! -name '.*' \
        \( -name '*.rt' -o -name '*.antt' -o -path './*' -o -path '/*' \) "$@"
}

# What changes where a file of these parts does, and is known without reading them: name, number, size, mode, and when text
# and file were changed last. In some locales a comma stands before the fraction of a second.
stamp() {
    find_files "$@" -- -printf '%p %i %s %m %T@ %C@\n'
}

# Copies parts into a folder that is made anew, but for files whose paths are absolute, and again where one is changed
# meanwhile. What `stamp` wrote of them is then in `stamped`.
#   take_copy FOLDER FUNCTION      FUNCTION leaves the parts in the array `parts`
take_copy() {
    local turns
    for ((turns = 0; turns < 5; turns++)); do
        rm -rf "$1" && mkdir -p "$1" || return
        "$2" || return
        stamped="$(stamp "${parts[@]}")" || true
        (find_files "${parts[@]}" -- ! -path '/*' -print0) | (cd "$root" && xargs -0 -r cp -L --parents -t "$1") || return
        [ "$(stamp "${parts[@]}")" != "$stamped" ] || return 0
    done
    echo "${0##*/}: the sources change all the time" >&2
    return 1
}
