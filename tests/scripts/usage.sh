# What scripts say about how they are called, and what `add` does if something is in its way. To be sourced by tests/scripts.sh.
# shellcheck shell=bash disable=SC2154
set_up_waiting

for script in add bitset gate look bindings/{c/build,c/clients,python/build} release diff/run bench/run; do
    ended=0
    env -u HOME PATH=/usr/bin:/bin "$top/$script" --help > "$room/wrote" 2> "$room/said" < /dev/null || ended=$?
    expect "$script --help ends with $ended" ends_with 0
    expect "$script --help writes no usage" grep -q '^usage: ' "$room/wrote"
    expect "$script --help writes to standard error" [ ! -s "$room/said" ]
    # Who types `sh` may have another shell by that name.
    if command -v dash > /dev/null; then
        expect "dash $script --help fails" env -u HOME PATH=/usr/bin:/bin dash "$top/$script" --help
    fi
    # Each finds what it sources where it is called by a link, and by its name alone.
    ln -sfn "$top/$script" "$room/by_link"
    expect "$script --help fails by a link" "$room/by_link" --help
    expect "$script --help fails by its name alone" env -C "$(dirname "$top/$script")" bash "${script##*/}" --help
    # These hand their words on to the program.
    [[ "$script" != @(look|bitset) ]] || continue
    ended=0
    (cd "$room" && "$top/$script" --wrong --words) > "$room/wrote" 2> "$room/said" < /dev/null || ended=$?
    expect "$script with wrong words ends with $ended" ends_with 2
    expect "$script with wrong words says no usage" says 'usage: '
done

# Where the usage cannot be written, these do not go on to work.
mkdir "$room/no_words"
for script in add gate bindings/{c/clients,python/build} tests/add.sh tests/scripts.sh; do
    for call in '--wrong --words 2>&-' '--help >&-'; do
        [[ "$script $call" != tests/*help* ]] || continue
        ended=0
        (cd "$room/no_words" && touch .git && eval timeout 10 env PATH=/usr/bin:/bin '"$top/$script"' "$call") \
            > "$room/wrote" 2> "$room/said" < /dev/null || ended=$?
        expect "$script $call ends with $ended" grep -qx '[12]' <<< "$ended"
    done
done
expect 'add copies libraries where its usage cannot be written' [ ! -e "$room/no_words/crates" ]

# Each script that bash runs.
scripts() {
    find "$top" "$top"/{bench,bindings/{c,python},diff,diff/roaring,tests,tools} -maxdepth 1 -type f \
        -exec sed -ns '1{/^#!.*bash/F}' {} +
}

# None calls a function or has an option that is exported. Each is run where there are no commands but those that its first
# lines call, so that it does not get far.
mkdir "$room/few_commands"
for command in bash env readlink dirname; do
    ln -s "$(type -P "$command")" "$room/few_commands"
done
functions=()
for name in cd command declare dirname readlink set source unset; do
    functions+=("BASH_FUNC_$name%%=() { builtin echo called > '$room/called'; }")
done
while read -r script; do
    rm -f "$room/called"
    env "${functions[@]}" SHELLOPTS=xtrace PATH="$room/few_commands" timeout 20 "$script" > "$room/wrote" 2> "$room/said" < /dev/null
    expect "$script calls a function that is exported" [ ! -e "$room/called" ]
    # What is at work for others with Python alone begins as bash that is told nothing.
    [ "$script" = "$top/bindings/python/build" ] || expect "$script has an option that is exported" not grep -q '^+' "$room/said"
done < <(scripts)
expect 'there is no script' [ "$(scripts | wc -l)" -gt 20 ]

# What they then do is the same.
for words in tests/{add,c,scripts}.sh\ --wrong 'tests/cost.sh none' tests/{program,refusals,release}.sh tools/needed add\ --help \
    {bitset,gate,look,bindings/c/build,bindings/c/clients,release,diff/run,bench/run}\ --help; do
    for way in env with_options; do
        ended=0
        # shellcheck disable=SC2086  # a command and its words
        "$way" "$top/"$words > "$room/by_$way" 2>&1 < /dev/null || ended=$?
        echo "$ended" >> "$room/by_$way"
    done
    expect "$words does something else where options are exported: $(tail -n 3 "$room/by_with_options")" \
        cmp "$room/by_env" "$room/by_with_options"
done

for words in --cpu '--cpu x86-64-v4' '--cpu x86-64-v3 --wrong' '--cpu=x86-64-v3' "$room/bench no-table"; do
    ended=0
    # shellcheck disable=SC2086  # each word is one
    "$top/bench/run" $words > "$room/wrote" 2> "$room/said" < /dev/null || ended=$?
    expect "bench/run $words ends with $ended" ends_with 2
    expect "bench/run $words says no usage" says 'usage: '
done
expect 'bench/run makes a folder for wrong words' [ ! -e "$room/bench" ]
for words in '' roaring; do
    ended=0
    # shellcheck disable=SC2086  # a word or none
    "$top/diff/run" $words --script "$room/none" > "$room/wrote" 2> "$room/said" < /dev/null || ended=$?
    expect "diff/run $words with no script ends with $ended" ends_with 2
    expect "diff/run $words does not say that there is no script" says "$room/none cannot be read"
done

# Names of nothing, files that are not there, and a locale of another encoding.
for words in edits.sh 'all_edits.sh bit_set/none' 'callers.sh none/none' 'cost.sh none' 'add.sh --wrong' 'c.sh --wrong' 'c.sh a b'; do
    ended=0
    # shellcheck disable=SC2086  # each word is one
    PYTHONSAFEPATH=1 "$top/tests/"$words > "$room/wrote" 2> "$room/said" < /dev/null || ended=$?
    expect "tests/$words ends with $ended" ends_with 2
done
for words in tables "tables $room/none" offsets; do
    ended=0
    # shellcheck disable=SC2086  # each word is one
    "$top/bench/"$words > "$room/wrote" 2> "$room/said" < /dev/null || ended=$?
    expect "bench/$words ends with 0" not ends_with 0
    expect "bench/$words says where in its text it ended" not says Traceback
done
LC_ALL=C PYTHONUTF8=0 PYTHONCOERCECLOCALE=0 "$top/tests/docs.sh" > "$room/wrote" 2> "$room/said" < /dev/null
expect 'tests/docs.sh cannot read where the locale has another encoding' not says UnicodeDecodeError

# A relative folder is below the current one, whatever CDPATH says. Nothing can be had here, so it ends before it builds.
mkdir -p "$room/elsewhere/kept" "$room/none_to_get"
for command in rustc apt-get; do
    ln -s "$(type -P false)" "$room/none_to_get/$command"
done
ended=0
(cd "$room" && CDPATH="$room/elsewhere" PATH="$room/none_to_get:$PATH" "$top/bench/run" kept work) \
    > "$room/wrote" 2> "$room/said" < /dev/null || ended=$?
expect "bench/run without packages ends with $ended" ends_with 2
expect 'bench/run works in another folder by CDPATH' [ -d "$room/kept/x86-64-v2" ]

# What another toolchain made is not taken for new, nor what is made in part or of an older source.
if command -v rustc > /dev/null; then
    (
        # shellcheck disable=SC2034  # what peers.sh reads
        script=tests cpu=x86-64-v2 folder="$room/peers"
        # shellcheck source=/dev/null
        . "$top/bench/peers.sh"
        mkdir "$room/sources"
        made="$room/library_made"
        make_it() { note_begun "$made" && sleep 0.1 && "$@" && touch "$made"; }
        touch "$room/sources/lib.rt" && sleep 0.1
        make_it true && note_made "$made"
        is_newer "$made" "$room/sources" || exit
        # A run that is ended as it makes it, and an edit meanwhile.
        make_it true
        ! is_newer "$made" "$room/sources" || exit 3
        make_it touch "$room/sources/lib.rt" && note_made "$made"
        ! is_newer "$made" "$room/sources" || exit 4
        make_it true && note_made "$made"
        is_newer "$made" "$room/sources" || exit
        echo 'kit of other stand-ins' > "$STAND_INS/kit/KIT-ID"
        ! is_newer "$made" "$room/sources" || exit 5
    ) > "$room/wrote" 2>&1 < /dev/null
    ended=$?
    expect "what is half made is taken for new: $(cat "$room/wrote")" not ends_with 3
    expect 'what was made before an edit is taken for new' not ends_with 4
    expect 'what another toolchain made is taken for new' not ends_with 5
    expect "what is new is not taken for that: $ended" grep -qx '[0345]' <<< "$ended"
fi

# Makes of a copy of a library one that `add` takes for its own of an older library.
make_older() {
    echo older > crates/bit_set/README.md
    (cd crates/bit_set && find . -path ./out -prune -o -type f ! -name COPIED -print0 | LC_ALL=C sort -z | xargs -0 sha256sum) \
        > "$room/sums"
    cp "$room/sums" crates/bit_set/COPIED
}

# An empty repository beside that from which libraries are copied.
from="$room/from"
mkdir -p "$from" "$room/theirs/crates"
(cd "$top" && tar cf - --exclude=out add crates.txt tools LICENSE-* crates/set_algebra crates/bit_{blocks,words,set,matrix}) | tar xf - -C "$from"
# A few files of each say as much as all.
find "$from/crates" -type f ! -iname 'lib.*' ! -name '*.md' ! -name bit_vec.rt -delete
find "$from/crates" -mindepth 3 -type d -empty -delete
mkdir -p "$from/crates"/bit_{blocks,words,set,matrix}/{src,specs,proofs}
cd "$room/theirs" || exit 1
git init -q .
mkdir -p crates/.add.Ab12Cd/src crates/.add.mine
printf '%s\r\n' '# theirs' 'bit_set: set_algebra bit_words bit_blocks serde_json thiserror' > crates.txt
ended=0
"$from/add" > "$room/wrote" 2> "$room/said" || ended=$?
expect "add beside a crates.txt with CRLF ends with $ended: $(cat "$room/said")" ends_with 0
expect 'add leaves what an earlier run left' [ ! -e crates/.add.Ab12Cd ]
expect 'add takes away a folder that is not its own' [ -d crates/.add.mine ]
expect 'add changes how lines of crates.txt end' [ "$(grep -c $'\r$' crates.txt)" -eq "$(wc -l < crates.txt)" ]
expect 'add writes a line of crates.txt twice' [ "$(grep -c '^bit_set:' crates.txt)" -eq 1 ]
expect 'add does not say how a library is proved' grep -qF "(cd \"$from/crates/bit_set\" && rt lib)" "$room/wrote"
expect 'add fails a second time' "$from/add"
make_older
expect 'add fails where options of bash are exported' with_options "$from/add"
expect 'add leaves an older copy where options of bash are exported' not grep -qx older crates/bit_set/README.md
mv crates.txt named.txt
ln -s named.txt crates.txt
sed -i 's/^bit_set:.*/bit_set: older/' named.txt
expect 'add fails where crates.txt is a link' "$from/add"
expect 'add does not bring the file up to date that crates.txt leads to' not grep -q older named.txt
expect 'add puts a file in the place of a link' [ -L crates.txt ]
mv named.txt crates.txt

# Ends `add` by SIGTERM once a slow command has made this file.
end_add() {
    local run
    start_group env --default-signal=TERM PATH="$room/slow:$PATH" "$from/add" > "$room/wrote" 2> "$room/said" < /dev/null
    run=$!
    expect "add does not come so far: $1" wait_until [ -e "$STAND_INS/$1" ]
    kill -s TERM "$run"
    finish "$run"
    expect "add by SIGTERM ends with $ended: $1" ends_with 143
}

# A signal where a copy takes the place of an older one, and no copy is there.
mkdir "$room/slow"
cat > "$room/slow/mv" << 'MOVES'
#!/bin/sh
command -p mv "$@"
case "$*" in *.old) touch "$STAND_INS/moved" && sleep 1 ;; esac
MOVES
chmod +x "$room/slow/mv"
mkdir -p crates/bit_set/out/incremental
make_older
end_add moved
expect 'add by SIGTERM leaves neither copy' [ -f crates/bit_set/COPIED ]
expect 'add by SIGTERM takes away what rt kept' [ -d crates/bit_set/out/incremental ]
expect 'add fails after a signal' "$from/add"

# A signal where what is proved is copied in part.
cat > "$room/slow/cp" << 'COPIES'
#!/bin/sh
command -p cp "$@"
case "$*" in */out/rlib*) rm -r "$3/more" && touch "$STAND_INS/copied" && exec sleep 30 ;; esac
COPIES
chmod +x "$room/slow/cp"
mkdir -p "$from/crates/bit_set/out/rlib/more"
touch "$from/crates/bit_set/out/rlib/stamp"
end_add copied
expect 'add by SIGTERM leaves a part of what is proved' [ "$(ls -A crates/bit_set/out)" = incremental ]
expect 'add fails after a part was copied' "$from/add"
expect 'add takes a part of what is proved for all' [ -d crates/bit_set/out/rlib/more ]

# What is proved of an older copy, which cannot be removed, as where root has proved it.
cat > "$room/slow/rm" << 'STAYS'
#!/bin/sh
case "$*" in */out/rlib | */out/.rlib) [ ! -e "$2" ] || exit 1 ;; esac
command -p rm "$@"
STAYS
chmod +x "$room/slow/rm"
make_older
ended=0
PATH="$room/slow:$PATH" "$from/add" > "$room/wrote" 2> "$room/said" || ended=$?
expect "add that cannot bring a copy up to date ends with $ended" ends_with 1
expect 'add says that a copy is up to date that is not' not grep -q 'bit_set: brought' "$room/wrote"
expect 'add leaves neither copy where it can remove nothing' grep -qx older crates/bit_set/README.md
expect 'add takes for proved what is left of it' [ ! -e crates/bit_set/out/rlib ]
rm "$room/slow/rm"
expect 'add fails once what is proved can be removed' "$from/add"
expect 'add leaves an older copy once that can be removed' not grep -qx older crates/bit_set/README.md

# A folder that is another crate.
for folder in crates/bit_words crates/../crates/bit_set/src; do
    ended=0
    (cd "$from" && tools/needed bit_set "$folder") > "$room/wrote" 2> "$room/said" || ended=$?
    expect "tools/needed into $folder ends with $ended" ends_with 2
    expect "tools/needed takes what is in $folder away" [ -f "$from/crates/bit_words/src/bit_vec.rt" ]
done

expect_no_edit "$from/add" "$from/add"

# A repository that is only to be read.
chmod -R a-w "$from/crates"
mkdir "$room/read_only"
(cd "$room/read_only" && touch .git && "$from/add") > "$room/wrote" 2> "$room/said"
chmod -R u+w "$from/crates"
expect 'add makes a copy that is only to be read' [ -z "$(find "$room/read_only/crates" ! -perm -u+w)" ]
cd "$top" || exit 1

# Without a folder for temporary files a script would work at the root of the file system.
mkdir "$room/no_temporary"
printf '%s\n' '#!/bin/sh' 'echo "mktemp: no folder" >&2' 'exit 1' > "$room/no_temporary/mktemp"
for command in mkdir rm cp tar; do
    printf '%s\n' '#!/bin/sh' "echo \"\$*\" | grep -qE '(^| )/[a-z_.]+( |\$)' && echo \"$command \$*\" >> '$room/works'" 'exit 1' \
        > "$room/no_temporary/$command"
done
chmod +x "$room/no_temporary"/*
for words in add.sh c.sh misuse.sh first_run.sh "program.sh $waits" "refusals.sh $waits $waits $waits" "release.sh $room/none" \
    'scripts.sh waiting'; do
    ended=0
    # shellcheck disable=SC2086  # a script and its words
    PATH="$room/no_temporary:$PATH" timeout 20 "$top/tests/"$words > "$room/wrote" 2> "$room/said" < /dev/null || ended=$?
    expect "tests/$words goes on without a temporary folder" grep -qx '[12]' <<< "$ended"
    expect "tests/$words works at the root of the file system" [ ! -e "$room/works" ]
done
# A pipe ends as its last command does, whatever the program ended with that wrote into it.
expect 'a test of a release loses how a program ends' not grep -rqE '[^|][|] cmp ' "$top/tests/release"

# A hook of git says to all that it runs which repository is its own, and that one is not to be changed.
git init -q "$room/of_hook"
find "$room/of_hook" | sort > "$room/of_hook_before"
mkdir "$room/by_hook"
(cd "$room/by_hook" && touch .git && GIT_DIR="$room/of_hook/.git" GIT_INDEX_FILE="$room/of_hook/.git/index" "$from/add") \
    > "$room/wrote" 2> "$room/said" < /dev/null
expect 'add works in the repository whose hook runs it' cmp "$room/of_hook_before" <(find "$room/of_hook" | sort)

# Each call that is given a row looks first where C asks for it. An entry may be any number.
header="$top/bindings/c/bit_set.h"
while read -r call; do
    expect "with BIT_SET_CHECKED $call does not look at its row" grep -qx "#define $call bit_matrix_checked_.*" "$header"
done < <(sed -n 's/^[a-z].*\b\(bit_matrix_[a-z_]*\)(.*\bsize_t \(row\|read\)\b.*/\1/p' "$header" | grep -v -e _stop_ -e _checked_)
expect 'with BIT_SET_CHECKED some entry ends the process' not grep -q checked_dominators "$header"

# Where the library is installed may have a space, which pkg-config would take for the end of a word.
cp -r "$top/bindings/c/source" "$room/source"
make -s -C "$room/source" PREFIX='/opt/a b' PROCESSOR=none build/none/bit_set.pc > "$room/wrote" 2>&1 < /dev/null
for name in prefix= libdir= includedir=; do
    expect "bit_set.pc has a space of a path as it is in $name" grep -q "^$name/opt/a\\\\ b" "$room/source/build/none/bit_set.pc"
done

# And it may have quotes, as a home of somebody's has. What is installed is built already here.
mkdir -p "$room/source"/{include,build/none,compat/roaring}
touch "$room/source/include"/a.{h,hpp} "$room/source/compat/roaring/a.h" "$room/source/build/none"/libbit_set.{a,so.} "$room/source/build/none"/{bit_set,bit_set32,bit_roaring,mem}.o
quoted="$room/o'neil \"q\""
for words in install uninstall; do
    ended=0
    make -s -C "$room/source" -o build/none/libbit_set.a -o build/none/libbit_set.so. DESTDIR="$quoted" PREFIX="/it's" \
        PROCESSOR=none "$words" > "$room/wrote" 2>&1 < /dev/null || ended=$?
    expect "make $words with quotes in a path ends with $ended: $(cat "$room/wrote")" ends_with 0
    [ "$words" = uninstall ] || expect 'make install leaves a file out where a path has quotes' \
        [ -f "$quoted/it's/lib/libbit_set.a" -a -f "$quoted/it's/include/a.h" -a -f "$quoted/it's/include/bit_set/roaring/a.h" ]
done
expect 'make uninstall leaves something where a path has quotes' [ -z "$(find "$quoted" ! -type d)" ]

# A relative path is that of the folder of the sources, wherever bit_set.pc is read, and whatever CDPATH says.
mkdir -p "$room/source/out"/{lib,include} "$room/elsewhere/out"/{lib,include}
touch "$room/elsewhere/out/lib/libbit_set.a"
make -s -C "$room/source" PREFIX=out PROCESSOR=none build/none/bit_set.pc > "$room/wrote" 2>&1 < /dev/null
expect 'bit_set.pc has a relative path' grep -qx 'libdir=/.*/out/lib' "$room/source/build/none/bit_set.pc"
CDPATH="$room/elsewhere" make -s -C "$room/source" PREFIX=out PROCESSOR=none uninstall > "$room/wrote" 2>&1 < /dev/null
expect 'make uninstall works in another folder by CDPATH' [ -e "$room/elsewhere/out/lib/libbit_set.a" ]
# Root may have written it, who installed the library before.
ln -sf /dev/full "$room/source/build/none/bit_set.pc"
expect 'make install cannot write bit_set.pc anew' make -s -C "$room/source" PROCESSOR=none build/none/bit_set.pc

# A command that fails once it has written a part.
mkdir -p "$room/fails" "$room/source/examples"
echo 'int bit_set_none;' > "$room/source/examples/a.c"
printf '%s\n' '#!/bin/sh' 'echo a part' 'exit 1' > "$room/fails/sed"
chmod +x "$room/fails/sed"
for path in "$room/fails:$PATH" "$PATH"; do
    PATH="$path" make -s -C "$room/source" PROCESSOR=none build/none/a32.c > "$room/wrote" 2>&1 < /dev/null
done
expect 'make takes what was written in part for whole' grep -qx 'int bit_set32_none;' "$room/source/build/none/a32.c"

# A compiler that is called with a word of its own, of which two runs at a time write into one folder.
mkdir -p "$room/headers" "$room/words"
touch "$room/headers"/{Python.h,bit_set.h}
printf '#!/bin/sh\necho "%s/headers"\n' "$room" > "$room/words/python"
cat > "$room/words/cc" << 'COMPILES'
#!/bin/sh
[ "$1" = --theirs ] || exit 1
for made; do :; done
sleep 0.5
echo made > "$made"
COMPILES
chmod +x "$room/words"/*
declare -A run_of=()
for run in first second; do
    PATH="$room/words:$PATH" CC='cc --theirs' PYTHON="$room/words/python" \
        start_group "$top/bindings/python/build" "$room/headers" "$room/module" < /dev/null > "$room/$run" 2>&1
    run_of[$!]="$run"
done
for run in "${!run_of[@]}"; do
    finish "$run"
    expect "bindings/python/build, the ${run_of[$run]} of two, ends with $ended: $(cat "$room/${run_of[$run]}")" ends_with 0
done
expect 'bindings/python/build leaves a file of its own' [ "$(find "$room/module" -type f | wc -l)" -eq 4 ]

# A Python that is older than the module takes.
printf '%s\n' '#!/bin/sh' "exec python3 -c 'import sys, sysconfig; sys.version_info = (3, 7, 1); exec(sys.argv.pop())' \"\$2\"" \
    > "$room/words/older"
chmod +x "$room/words/older"
ended=0
PYTHON="$room/words/older" "$top/bindings/python/build" "$room/headers" "$room/module" > "$room/wrote" 2> "$room/said" < /dev/null || ended=$?
expect "bindings/python/build by an older Python ends with $ended" ends_with 1
expect 'bindings/python/build does not say that Python is too old' says 'this is Python 3.7, and'

# The headers of Python 3.12 count no reference in these, which each version before it frees then.
expect 'the Python module returns None with no reference where newer headers built it' \
    not grep -rqwE 'Py_RETURN_(NONE|TRUE|FALSE|NOTIMPLEMENTED)' "$top/bindings/python/src"

# A variable that is empty names no folder: then the package takes the library that it has in it.
if command -v rustc > /dev/null; then
    mkdir -p "$room/package/lib/x86-64"
    touch "$room/package/lib/x86-64/libbit_set.a"
    expect 'rustc does not build the script of bit-set-sys' \
        rustc --edition 2021 "$top/bindings/rust/bit-set-sys/build.rs" -o "$room/build_script" --crate-name build_script
    env BIT_SET_LIBRARY_DIR= CARGO_MANIFEST_DIR="$room/package" CARGO_CFG_TARGET_ARCH=x86_64 CARGO_CFG_TARGET_OS=linux \
        "$room/build_script" > "$room/wrote" 2> "$room/said"
    expect 'bit-set-sys takes an empty variable for a folder' \
        grep -qxF "cargo:rustc-link-search=native=$room/package/lib/x86-64" "$room/wrote"
    # Cargo builds in other folders than the one that it is called in.
    for named in package/lib/x86-64 "$room/package/lib" "$room/"$'\xff'; do
        ended=0
        (cd "$room" && BIT_SET_LIBRARY_DIR="$named" ./build_script) > "$room/wrote" 2> "$room/said" || ended=$?
        expect "bit-set-sys takes the library in $named" not ends_with 0
        expect "bit-set-sys does not say what is wrong with $named" \
            grep -q -e 'must be an absolute path' -e 'there is no libbit_set.a' -e 'UTF-8' "$room/said"
    done
    BIT_SET_LIBRARY_DIR="$room/package/lib/x86-64" "$room/build_script" > "$room/wrote" 2> "$room/said"
    expect 'bit-set-sys does not take the folder that is named' \
        grep -qxF "cargo:rustc-link-search=native=$room/package/lib/x86-64" "$room/wrote"
fi

# Whatever git is told of how lines end, a release has them as they were committed.
library="$room/lines"
mkdir "$library"
cp "$top/.gitattributes" "$library"
printf '%s\n' '#!/bin/sh' : > "$library/script"
in_library init -q && in_library add . && in_library commit -qm stand_in
expect 'an archive has other ends of lines where core.autocrlf is true' \
    cmp "$library/script" <(git -C "$library" -c core.autocrlf=true archive HEAD script | tar xO)

# A package of Debian's has the same bytes, however others compress theirs.
if command -v dpkg-deb > /dev/null; then
    mkdir -p "$room/package_of/DEBIAN" "$room/package_of/usr"
    printf '%s\n' 'Package: a' 'Version: 1' 'Architecture: all' 'Maintainer: a <a@example.com>' 'Description: a' \
        > "$room/package_of/DEBIAN/control"
    cat "$top"/tests/scripts/*.sh > "$room/package_of/usr/texts"
    for level in '' 0 9; do
        # The last of them in a folder that hands its group on.
        [ "$level" != 9 ] || chmod g+s "$room/package_of"{,/DEBIAN,/usr}
        (
            # shellcheck disable=SC2034  # what the parts read
            folder="$room/packed$level" version=1 architecture=all SOURCE_DATE_EPOCH=0
            mkdir "$folder"
            . "$top/tools/release/packing.sh" && . "$top/tools/release/debian.sh"
            export SOURCE_DATE_EPOCH ${level:+DPKG_DEB_COMPRESSOR_LEVEL="$level"}
            build_package "$room/package_of"
        ) > "$room/said" 2>&1
    done
    expect 'a package has other bytes by DPKG_DEB_COMPRESSOR_LEVEL' cmp "$room"/packed{,0}/package_of_1-1_all.deb
    expect "a package has other bytes in a folder of a group: $(cat "$room/said")" cmp "$room"/packed{,9}/package_of_1-1_all.deb
fi

# Where a comma stands before a fraction, rows of scaling are judged as elsewhere. Each takes 5.2 times as much here.
if [ -n "$comma" ]; then
    mkdir "$room/counts"
    cat > "$room/counts/valgrind" << 'COUNTS'
#!/bin/sh
[ "$6" -ge 1024 ] && [ "$6" != 65536 ] && turn=520 || turn=100
echo "== Collected : $((turn * $7))" >&2
COUNTS
    chmod +x "$room/counts/valgrind"
    for locale in C "$comma"; do
        LC_ALL="$locale" PATH="$room/counts:$PATH" "$top/tests/scaling.sh" "$room/none" > "$room/$locale" 2>&1 < /dev/null
    done
    expect "tests/scaling.sh judges otherwise under $comma" cmp "$room/C" "$room/$comma"
    expect 'tests/scaling.sh counts nothing by a stand-in' not grep -q 'nothing was counted' "$room/C"
fi

# In Turkish, i is none of a-z. The calls over blocks of 32 bits have names of their own there too.
if locale -a 2> /dev/null | grep -qx 'tr_TR\.utf8'; then
    printf '\t.globl\t%s\n' bit_set_insert bit_matrix_fill_row | LC_ALL=tr_TR.utf8 bash -c '
        . "$1/tools/c_library.sh"
        name_calls 32' bash "$top" > "$room/wrote" 2> "$room/said"
    expect 'bindings/c/build leaves calls under other names in Turkish' wrote $'\t.globl\tbit_set32_insert\n\t.globl\tbit_matrix32_fill_row'
    mkdir "$room/theirs/crates/.add.iiiiii"
    (cd "$room/theirs" && LC_ALL=tr_TR.utf8 "$from/add") > "$room/wrote" 2> "$room/said"
    expect 'add leaves what an earlier run left in Turkish' [ ! -e "$room/theirs/crates/.add.iiiiii" ]
fi
