# What `bindings/c/build` does with files of others in its folder, and with edits as it runs. To be sourced by
# tests/scripts.sh.
# shellcheck shell=bash disable=SC2154
set_up_library

# What others keep in the folder stays, and what stands in the way is not replaced.
build_into() {
    ended=0
    "$c/build" "$room/$1" --proved > "$room/wrote" 2> "$room/said" < /dev/null || ended=$?
}
mkdir "$room/theirs"
echo theirs | tee "$room/theirs/libbit_set.py" > "$room/theirs/bit_set.h"
forget_calls
build_into theirs
expect "bindings/c/build beside another bit_set.h ends with $ended" ends_with 1
expect 'bindings/c/build does not say which file is in the way' says "$room/theirs/bit_set.h is there"
expect 'bindings/c/build proves what it cannot write' not is_called 'bit_set_c$'
expect 'bindings/c/build replaces a file that it has not written' grep -qx theirs "$room/theirs/bit_set.h"
rm "$room/theirs/bit_set.h"
for turn in first second; do
    build_into theirs
    expect "the $turn bindings/c/build into a folder of others ends with $ended: $(tail -n 1 "$room/said")" ends_with 0
    expect "the $turn bindings/c/build takes away a file of others" grep -qx theirs "$room/theirs/libbit_set.py"
done
sed -i 's/^#define BIT_SET_ABI .*/#define BIT_SET_ABI 99/' "$c/bit_set.h"
build_into theirs
expect "bindings/c/build of another ABI ends with $ended" ends_with 0
expect 'bindings/c/build leaves a library that it wrote of another ABI' \
    [ "$(cd "$room/theirs" && echo libbit_set.*)" = 'libbit_set.a libbit_set.py libbit_set.so libbit_set.so.99' ]
cp "$top/bindings/c/bit_set.h" "$c"
echo '// theirs' >> "$room/theirs/bit_set.hpp"
build_into theirs
expect "bindings/c/build beside a header that was changed ends with $ended" ends_with 1
expect 'bindings/c/build replaces a header that was changed' grep -qx '// theirs' "$room/theirs/bit_set.hpp"
expect_no_edit "$c/build" "$c/build" "$room/built" --proved

# An edit meanwhile: header and library are of the texts that it began with. rt looks for each crate that is named.
for name in $(sed -n 's/^\([a-z_0-9]*\)[ :].*/\1/p' "$library/crates.txt"); do
    mkdir -p "$library/crates/$name/src"
    [[ "$name" = bit_*_c ]] || echo '// a source' > "$library/crates/$name/src/lib.rt"
done
echo '// mark: 1' | tee "$library/crates/bit_blocks/src/lib.rt" > "$library/crates/bit_set_c/src/marks.rt"
echo 1 > "$STAND_INS/seconds.bit_blocks"
forget_calls
start_group "$c/build" "$room/moment" < /dev/null > "$room/wrote" 2> "$room/said"
begun=$!
expect 'bindings/c/build does not prove a library below' wait_until is_called 'bit_blocks$'
echo '// mark: 2' | tee "$library/crates/bit_blocks/src/lib.rt" > "$library/crates/bit_set_c/src/marks.rt"
echo '/* later */' >> "$c/bit_set.h"
finish "$begun"
expect "bindings/c/build with an edit meanwhile ends with $ended: $(tail -n 1 "$room/said")" ends_with 0
expect 'bindings/c/build takes the header of a later text' not grep -qF '/* later */' "$room/moment/bit_set.h"
for text in 'bit_blocks: 1' 'bit_set_c: 1'; do
    expect "bindings/c/build takes sources of a later text than $text" grep -qx "$text" "$STAND_INS/marks.bit_set_c"
done
rm -r "$library/crates/bit_set_c/src/marks.rt" "$STAND_INS/seconds.bit_blocks"
find "$library/crates" -mindepth 1 -maxdepth 1 ! -name 'bit_*_c' -exec rm -r {} +
cp "$top/bindings/c/bit_set.h" "$c"
