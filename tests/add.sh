#!/usr/bin/env -S bash -p
# Runs `add` in empty repositories, and looks at what it leaves there and at what it rejects. With --prove it also follows
# README's lines for Rattle, which make an example and prove and run it: this takes minutes.
# The last line is 'N passed, M failed'.
case $- in *p*) ;; *) exec bash -p "$0" "$@" ;; esac
set -uo pipefail
# shellcheck source=tools/start.sh
. "$(dirname "$(readlink -f "$0")")/../tools/start.sh"
top="$(dirname "$(dirname "$(readlink -f "${BASH_SOURCE[0]}")")")"
passed=0
failed=0
case "$*" in
    '' | --prove) ;;
    *) echo 'usage: tests/add.sh [--prove]' >&2; exit 2 ;;
esac
. "$top/tools/ending.sh"
make_room || exit 1

# Counts whether a command succeeds.
expect() {
    local what="$1"
    shift
    if "$@" > /dev/null 2>&1; then
        passed=$((passed + 1))
    else
        echo "FAILED: $what"
        failed=$((failed + 1))
    fi
}

not() { ! "$@"; }

# An empty repository, as the current folder.
start() {
    mkdir "$room/$1" && cd "$room/$1" && git init -q .
}

# The repository that is copied from, with a file in the place of what is proved: that is a gigabyte.
from="$room/from"
mkdir "$from"
libraries=(bit_blocks set_algebra bit_words bit_set bit_matrix graph_walks dataflow automata free_slots roaring roaring_treemap roaring_bit_sets)
(cd "$top" && tar cf - --exclude=out add tools crates.txt LICENSE-* crates/evens "${libraries[@]/#/crates/}") | tar xf - -C "$from"
for library in "${libraries[@]}"; do
    mkdir -p "$from/crates/$library/out/rlib"
    echo "$library" > "$from/crates/$library/out/rlib/proved"
    touch "$from/crates/$library/out/rlib/stamp"
done

# shellcheck disable=SC2120  # the words are those of `expect` and `not`
add() { "$from/add" "$@"; }

# What a folder has, but for what rt keeps.
texts() { find . \( -name out -o -name .git \) -prune -o -type f -print0 | LC_ALL=C sort -z | xargs -0 sha256sum; }

# Whether `add` fails, and leaves all as it was.
refuses() {
    local before
    before="$(texts)"
    ! add "$@" && [ "$(texts)" = "$before" ]
}

# Whether `add` says something.
# shellcheck disable=SC2120
says() {
    local wanted="$1" said
    shift
    said="$(add "$@" 2>&1)"
    [[ "$said" = *"$wanted"* ]]
}

# Whether each link of the copied documents leads to a file.
links_lead_on() {
    local document target
    for document in crates/*/*.md; do
        while read -r target; do
            [ -e "$(dirname "$document")/$target" ] || return 1
        done < <(grep -o ']([^)#]*' "$document" | sed 's/^](//; /^$/d; /^http/d')
    done
}

# Whether a copy has the library's files, and no wrong bodies.
is_copy() {
    local part
    for part in src specs proofs; do
        diff -r "$top/crates/$1/$part" "crates/$1/$part" || return 1
    done
    cmp "$from/crates/$1/out/rlib/proved" "crates/$1/out/rlib/proved" || return 1
    [ ! -e "crates/$1/must-fail" ] && [ -f "crates/$1/LICENSE-MIT" ] && [ -f "crates/$1/LICENSE-APACHE" ]
}

# Whether just these libraries were copied.
copied() { [ "$(ls crates)" = "$(printf '%s\n' "$@" | sort)" ]; }

same_lines() { [ "$(sort "$1")" = "$(sort "$2")" ]; }

try_first() {
    start first
    expect 'add fails in an empty repository' add
    for library in bit_blocks set_algebra bit_words bit_set; do
        expect "the copy of $library is not the library" is_copy "$library"
    done
    expect 'a link of the copied documents leads nowhere' links_lead_on
    expect 'crates.txt has not the lines of the libraries' same_lines crates.txt <(grep -E '^(bit_blocks|set_algebra|bit_words|bit_set):' "$top/crates.txt")
    expect 'HANDLES is not written' grep -qx 'Handles allowed: none.' HANDLES
    before="$(texts)"
    expect 'add fails where the copies are up to date' add
    expect 'add changes copies that are up to date' [ "$(texts)" = "$before" ]
    rm crates/bit_set/src/hash.rt
    expect 'add takes a copy that was changed for its own' refuses
}

try_matrix() {
    start table
    expect 'add fails with a matrix' add bit_matrix
    for library in bit_set bit_matrix; do
        expect "the copy of $library beside a matrix is not the library" is_copy "$library"
    done
    expect 'a link of the documents copied with a matrix leads nowhere' links_lead_on
    expect 'crates.txt has no line of the matrix' grep -q '^bit_matrix:' crates.txt
    echo older > crates/bit_matrix/README.md
    (cd crates/bit_matrix && find . -path ./out -prune -o -type f ! -name COPIED -print0 | LC_ALL=C sort -z | xargs -0 sha256sum > COPIED)
    expect 'add fails beside a matrix that it copied' add
    expect 'add leaves an older copy of the matrix' not grep -qx older crates/bit_matrix/README.md
    expect 'add takes an argument that is no library' not add bit_graph
}

try_walks() {
    start walks
    expect 'add fails with a library above the matrix' add graph_walks
    expect 'add does not copy what a library stands on' copied bit_blocks set_algebra bit_words bit_set bit_matrix graph_walks
    expect 'the copy of graph_walks is not the library' is_copy graph_walks
    expect 'a link of the documents copied with graph_walks leads nowhere' links_lead_on
    expect 'add fails with two more libraries' add free_slots roaring
    expect 'add does not copy two more' copied bit_blocks set_algebra bit_words bit_set bit_matrix graph_walks free_slots roaring
}

try_everything() {
    start all
    expect 'add fails with all libraries' add dataflow automata free_slots graph_walks roaring_treemap roaring_bit_sets
    expect 'add does not copy all' copied "${libraries[@]}"
    for library in "${libraries[@]}"; do
        expect "the copy of $library beside all is not the library" is_copy "$library"
        expect "crates.txt has not one line of $library" [ "$(grep -c "^$library:" crates.txt)" -eq 1 ]
    done
    expect 'a link of all copied documents leads nowhere' links_lead_on
}

try_older() {
    start older
    expect 'add fails' add
    sed -i '$d' crates/bit_set/proofs/Lib.antt
    listed="$(cd crates/bit_set && find . -path ./out -prune -o -type f ! -name COPIED -print0 | LC_ALL=C sort -z | xargs -0 sha256sum)"
    echo "$listed" > crates/bit_set/COPIED
    echo older > crates/bit_set/out/rlib/proved
    mkdir -p crates/bit_set/out/incremental
    expect 'add fails to bring a copy up to date' add
    expect 'add does not bring a copy up to date' is_copy bit_set
    expect 'add takes away what rt kept of a copy' [ -d crates/bit_set/out/incremental ]
}

try_mine() {
    start mine
    mkdir -p crates/mine/src
    printf '# mine\nmine: std' > crates.txt
    echo 'Handles allowed: Files.' > HANDLES
    echo '// mine' > crates/mine/src/lib.rt
    expect 'add fails beside crates of the user' add
    expect 'add changes HANDLES' grep -qx 'Handles allowed: Files.' HANDLES
    expect 'add changes the lines of crates.txt' [ "$(head -n 2 crates.txt)" = $'# mine\nmine: std' ]
    expect 'add changes the crates of the user' [ "$(cat crates/mine/src/lib.rt)" = '// mine' ]
}

try_theirs() {
    start theirs
    mkdir -p crates/bit_set/src
    echo '// theirs' > crates/bit_set/src/lib.rt
    expect 'add takes a crate of the user for its copy' refuses
    rm -r crates
    echo 'bit_set: another' > crates.txt
    expect 'add takes a line of the user for its own' refuses
    rm -r crates.txt .git
    expect 'add runs outside a repository' refuses
}

# Moves a repository's copies of what is proved away for one command.
without_proofs() {
    local library status=0
    for library in "${libraries[@]}"; do
        mv "$from/crates/$library/out" "$from/crates/$library/out.away"
    done
    "$@" || status=$?
    for library in "${libraries[@]}"; do
        mv "$from/crates/$library/out.away" "$from/crates/$library/out"
    done
    return "$status"
}

# What `rt ci` leaves has no stamp, and no use for another repository.
without_stamp() {
    local status=0
    mv "$from/crates/$1/out/rlib/stamp" "$room/stamp"
    shift
    "$@" || status=$?
    mv "$room/stamp" "$from/crates/bit_set/out/rlib/stamp"
    return "$status"
}

try_unproved() {
    local lib="(cd \"$from/crates/bit_set\" && rt lib)" again
    again="$lib"$'\n'"add:     \"$from/add\""
    start unproved
    expect 'add does not say that rt lib comes first' without_proofs says "$again"
    expect 'add copies what is proved where nothing is' [ ! -e crates/bit_set/out ]
    expect 'add does not say to prove an example last' without_proofs says "$again"$'\n''add:     (cd crates/mine && rt check && rt run)' --example crates/mine
    expect 'add does not copy later what is proved then' add
    expect 'a library is not there' is_copy bit_set
    start unstamped
    expect 'add takes a library without a stamp for a proved one' without_stamp bit_set says "$lib"
    expect 'add copies a library without a stamp' [ ! -e crates/bit_set/out ]
    start proved
    expect 'add does not say that it copied the proved library' says 'crates/bit_set: copied, with its proved library'
    expect 'add asks for rt lib where all is proved' not says 'rt lib'
    expect 'add does not say how to prove the example' says '(cd crates/mine && rt check && rt run) proves' --example crates/mine
    start changed
    touch -d '1 minute' "$from/crates/bit_set/src/lib.rt"
    expect 'add does not say that a file changed after rt lib' says "$lib"
    expect 'add fails beside a library of an older text' add
    echo new > "$from/crates/bit_set/out/rlib/stamp"
    touch -d '2 minutes' "$from/crates/bit_set/out/rlib/stamp"
    expect 'add fails once the library is proved again' add
    expect 'add keeps a library of an older text' cmp crates/bit_set/out/rlib/stamp "$from/crates/bit_set/out/rlib/stamp"
    touch -r "$top/crates/bit_set/src/lib.rt" "$from/crates/bit_set/src/lib.rt"
    start below
    touch -d '3 minutes' "$from/crates/bit_blocks/src/lib.rt"
    expect 'add does not say that a file below changed after rt lib' says "$lib"
    touch -r "$top/crates/bit_blocks/src/lib.rt" "$from/crates/bit_blocks/src/lib.rt"
}

# Whether a folder has the example under a name, and crates.txt its line.
is_example() {
    local name="${1##*/}"
    diff -r "$1/src" "$top/crates/evens/src" && cmp "$1/stdout" "$top/crates/evens/stdout" || return 1
    grep -qx "use Rattle.$name.proofs.evens.Given as goal" "$1/proofs/evens/Invariants.antt" || return 1
    ! grep -r 'Rattle\.evens' "$1" || return 1
    grep -qx "$name: bit_set" crates.txt
}

try_example() {
    start example
    expect 'add fails with an example' add --example crates/mine
    expect 'the example is not the one that is proved' is_example crates/mine
    expect 'add does not copy the libraries beside an example' copied bit_blocks set_algebra bit_words bit_set mine
    expect 'add writes over an example' refuses --example crates/mine
    expect 'add writes the example under the name of a library' refuses --example crates/bit_words
    expect 'add writes the example where rt does not look' refuses --example elsewhere/mine
    expect 'add writes an example at the top beside crates/' refuses --example other
    expect 'add takes what is no name of a crate' refuses --example crates/My-Set
    expect 'add takes an empty name' not add --example ''
    expect 'add takes no name' not add --example
    echo 'theirs: std' >> crates.txt
    expect 'add takes the name of a line of crates.txt' refuses --example crates/theirs
    mkdir crates/empty
    expect 'add takes a folder that exists' refuses --example crates/empty
    expect 'add fails with a second example' add --example ./crates/second/ free_slots
    expect 'the second example is another' is_example crates/second
    expect 'the first example changed' is_example crates/mine
    start top
    echo 'own:' > crates.txt
    expect 'add fails with an example at the top' add --example mine
    expect 'the example at the top is another' is_example mine
}

# README's lines for Rattle, and what they print.
follow_readme() {
    sed -n '/^### Rattle/,/^### /{s/^    //p}' "$top/README.md" > lines
    grep -q -- --example lines || return 1
    BIT_SET="$top" bash -e lines > said 2>&1
    local status=$?
    tail -n 3 said >&2
    [ "$status" -eq 0 ] && grep -qF '{0, 2, 4, 6, 8}' said
}

try_all() {
    try_first
    try_matrix
    try_walks
    try_everything
    try_older
    try_mine
    try_theirs
    try_unproved
    try_example
    if [ "${1:-}" = --prove ]; then
        start readme
        expect "README's lines for Rattle prove no example" follow_readme
    fi
    echo "$passed passed, $failed failed"
    [ "$failed" -eq 0 ]
}

# Bash reads all of this before it begins, so an edit of this script meanwhile is for the next run.
{
    run_group try_all "$@" < /dev/null
    exit
}
