# What `./release` is made of, and how it ends. To be sourced by tests/scripts.sh.
# shellcheck shell=bash disable=SC2154
set_up_library

# A release of that repository, which gets no further than its proofs here, so that what comes then is not needed.
others="$room/others"
mkdir "$others"
for command in python3 dpkg-deb strip objdump aarch64-linux-gnu-{gcc,ar,strip}; do
    ln -s "$(type -P true)" "$others/$command"
done
cp -r "$top/release" "$library"
cp -r "$top/tools/release" "$library/tools"
release() {
    ended=0
    env PATH="${1:-$others:$PATH}" "$library/release" "$room/released" < /dev/null > "$room/wrote" 2> "$room/said" \
        || ended=$?
}
in_library init -q && in_library add . && in_library commit -qm stand_in
for signal in HUP INT QUIT TERM; do
    ended_by_signal release "$signal" 'bit_set_c$' env PATH="$others:$PATH" "$library/release" "$room/released"
    expect "release by SIG$signal leaves a folder" [ ! -e "$room/released" ]
done

# An edit meanwhile that is taken back before the end: all is of the commit.
mkdir -p "$library/crates/bit_blocks/src"
echo '// mark: committed' | tee "$library/crates/bit_blocks/src/lib.rt" > "$library/crates/bit_set_c/src/marks.rt"
# rt looks for each crate that is named there.
sed -i '/^\(bit_blocks\|bit_set_c\|bit_roaring_c\)[ :]/!d' "$library/crates.txt"
in_library add . && in_library commit -qm marks
echo 1 > "$STAND_INS/seconds.bit_blocks"
forget_calls
start_group env PATH="$others:$PATH" "$library/release" "$room/released" < /dev/null > "$room/wrote" 2> "$room/said"
begun=$!
expect 'release does not prove a library below' wait_until is_called 'bit_blocks$'
echo '// mark: edited' > "$library/crates/bit_set_c/src/marks.rt"
expect 'release proves nothing' wait_until [ -e "$STAND_INS/marks.bit_set_c" ]
kill -s TERM "$begun"
finish "$begun"
expect 'release takes a text that is not committed' not grep -q edited "$STAND_INS/marks.bit_set_c"
in_library reset -q --hard HEAD~1 && rm -rf "$library/crates/bit_blocks" "$STAND_INS/seconds.bit_blocks"
release /usr/bin:/bin
expect "release without rt ended with $ended" ends_with 127
mkdir "$room/older"
printf '%s\n' '#!/bin/sh' "exec $(type -P python3) -c 'import sys, sysconfig; sys.version_info = (3, 7, 1); exec(sys.argv.pop())' \"\$2\"" \
    > "$room/older/python3"
chmod +x "$room/older/python3"
forget_calls
release "$room/older:$others:$PATH"
expect "release by an older Python ended with $ended" ends_with 1
expect 'release proves what an older Python cannot build' not is_called 'bit_set_c$'
mkdir "$room/released"
touch "$room/released/theirs"
release
expect "release into a folder that is not empty ended with $ended" ends_with 1
expect 'release does not say that a folder is not empty' says 'is not empty'
rm -r "$room/released"
echo '# changed' >> "$c/build"
release
expect "release of what is not committed ended with $ended" ends_with 1
expect 'release does not say what is not committed' says 'not committed'
expect 'release makes a folder where it fails' [ ! -e "$room/released" ]
in_library checkout -q bindings/c/build
for unseen in skip-worktree assume-unchanged; do
    in_library update-index "--$unseen" bindings/c/build
    echo '# changed' >> "$c/build"
    release
    expect "release of a change that git is told not to see, by $unseen, ended with $ended" ends_with 1
    expect "release does not say what is not committed, by $unseen" says 'not committed'
    in_library update-index "--no-$unseen" bindings/c/build && in_library checkout -q bindings/c/build
done

# A disk that keeps no owner of a file, as root has it say.
mkdir "$room/no_owners" "$room/made"
cat > "$room/no_owners/cp" << 'COPIES'
#!/bin/sh
command -p cp "$@" || exit
case "$1" in -*p*) echo 'cp: failed to preserve ownership' >&2 && exit 1 ;; esac
COPIES
chmod +x "$room/no_owners/cp"
echo a > "$room/made/a file"
ended=0
(
    # shellcheck disable=SC2034  # what the part reads
    released="$room/handed/over" folder="$room/made" PATH="$room/no_owners:$PATH"
    stop() { exit 1; }
    . "$top/tools/release/folder.sh" && hand_over
) > "$room/wrote" 2> "$room/said" < /dev/null || ended=$?
expect "a release on a disk that keeps no owners ends with $ended: $(cat "$room/said")" ends_with 0
expect 'a release is not handed over' cmp "$room/made/a file" "$room/handed/over/a file"

# What a compiler or an editor left beside the sources.
left=("$c"/{example.o,other.h} "$library/LICENSE-MIT.orig")
touch "${left[@]}"
(. "$library/tools/c_library.sh" && write_source "$room/written") > "$room/wrote" 2> "$room/said" < /dev/null
expect "a release takes what a compiler left: $(cd "$room/written" && find . -type f | tr '\n' ' ')" \
    [ "$(cd "$room/written" && echo L* co*/*/* e*/* i*/*)" = "LICENSE-APACHE LICENSE-MIT $(echo \
        compat/roaring/roaring{,_bytes,_iterators}.h examples/example.{c,cc,out} include/bit_{roaring,set}.{h,hpp} include/bit_set32.h)" ]
rm "${left[@]}"

# What git cannot read may have changed. Another user's checkout is not read at all.
mv "$library/.git/index" "$room/index"
echo broken > "$library/.git/index"
forget_calls
release
expect "release where git reads nothing ended with $ended" ends_with 1
expect 'release does not say that git reads nothing' says 'git does not read'
expect 'release proves what git does not read' not is_called 'bit_set_c$'
mv "$room/index" "$library/.git/index"

# A commit that is signed, where git is to say of each that it logs how it is signed.
printf '%s\n' '#!/bin/sh' 'echo signed >&2' > "$room/signs"
chmod +x "$room/signs"
signed="$(git -C "$library" cat-file commit HEAD | sed 's/^committer .*/&\ngpgsig -----BEGIN PGP SIGNATURE-----\n -----END PGP SIGNATURE-----/' \
    | git -C "$library" hash-object -t commit -w --stdin)"
unsigned="$(git -C "$library" rev-parse HEAD)"
in_library reset -q --soft "$signed" && in_library config gpg.program "$room/signs" && in_library config log.showSignature true
(. "$library/tools/release/folder.sh" && here="$library" && read_commit && echo "$SOURCE_DATE_EPOCH") > "$room/wrote" 2> "$room/said" < /dev/null
expect "release reads as the time of a signed commit: $(cat "$room/wrote")" wrote "$(git -C "$library" log -1 --format=%ct "$unsigned")"
in_library config --unset log.showSignature && in_library reset -q --soft "$unsigned"
