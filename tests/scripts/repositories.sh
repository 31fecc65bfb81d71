# The small repositories that the parts of tests/scripts.sh work in. To be sourced by it.
# shellcheck shell=bash disable=SC2154

# One of three crates, each of which has a mark that the program then writes.
repository="$room/repository"

# Writes the mark of a crate.
mark() { echo "// mark: $2" > "$repository/crates/$1/src/marks.rt"; }

set_up_repository() {
    local crate
    mkdir -p "$repository/tools" "$repository/crates"/{low,mid,bitset}/{src,specs,proofs}
    cp "$top"/{bitset,look} "$repository"
    cp "$top"/tools/{run,start,copy,ending,program}.sh "$top/tools/needed" "$repository/tools"
    printf '%s\n' 'low:' 'mid: low' 'bitset: mid' > "$repository/crates.txt"
    echo '# none' > "$repository/tools/left_out.txt"
    for crate in low mid bitset; do
        mark "$crate" 1
        echo '// a source' | tee "$repository/crates/$crate/src/lib.rt" > "$repository/crates/$crate/src/main.rt"
    done
}

# What the program writes that has these marks, of the lowest crate first.
marks() { printf '%s\n' 'words: u8' "low: $1" "mid: $2" "bitset: $3"; }

run() {
    ended=0
    "$@" "$repository/bitset" u8 < /dev/null > "$room/wrote" 2> "$room/said" || ended=$?
}

# Runs it, and looks at how it ended and which marks it wrote.
expect_marks() {
    local what="$1"
    run
    expect "$what: it ended with $ended: $(tail -n 1 "$room/said")" ends_with 0
    expect "$what: another program was run" wrote "$(marks "${@:2}")"
}

# Starts it beside, until it proves a crate.
begin_until() {
    forget_calls
    start_group "$repository/bitset" u8 < /dev/null > "$room/wrote" 2> "$room/said"
    begun=$!
    expect "it does not begin with $1" wait_until is_called "$1\$"
}

expect_begun() {
    local what="$1"
    finish "$begun"
    expect "$what: it ended with $ended" ends_with 0
    expect "$what: another program was run" wrote "$(marks "${@:2}")"
}

# One with the library for C, and what is in it for C alone.
library="$room/library"
c="$library/bindings/c"
set_up_library() {
    mkdir -p "$library"/{bindings,crates,tests}
    cp -r "$top"/{tools,gate,crates.txt,CHANGELOG.md} "$top"/LICENSE-* "$library"
    cp -r "$top/bindings/c" "$library/bindings"
    rm -rf "$c/out"
    cp "$top"/tests/{c_*.[ch],roaring.cc} "$library/tests"
    (cd "$top/crates" && tar cf - --exclude=out bit_set_c bit_roaring_c) | tar xf - -C "$library/crates"
}

# Runs git there. Who runs this may have it sign each commit, or run hooks.
in_library() {
    GIT_CONFIG_GLOBAL=/dev/null GIT_CONFIG_NOSYSTEM=1 \
        git -C "$library" -c user.name=stand_in -c user.email=stand_in@example.com "$@" > /dev/null
}

# A program that waits, which stands for any that takes long.
waits="$room/waiting/program"
set_up_waiting() {
    mkdir "$room/waiting"
    printf '%s\n' '#!/bin/sh' 'echo "program $$ waits" >> "$STAND_INS/calls"' 'exec sleep 30' > "$waits"
    chmod +x "$waits"
    ln -s program "$room/waiting/valgrind"
    ln -s program "$room/waiting/git"
}
