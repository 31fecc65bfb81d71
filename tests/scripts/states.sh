# What `./bitset` makes of what another run may have left, and what it says where something fails. To be sourced by
# tests/scripts.sh.
# shellcheck shell=bash disable=SC2154
set_up_repository
mark low 7
mark mid 7
expect_marks 'from nothing' 7 7 1
program="$(find "$repository" -name bitset -type f -path '*/out/*')"
chmod -x "$program"
expect_marks 'without the run bit of the program' 7 7 1
: > "$program"
expect_marks 'with an empty program' 7 7 1
for file in "$repository"/out/low.rlib/*; do
    : > "$file"
done
mark mid 8
expect_marks 'with an empty library' 7 8 1
rm -r "$repository/out/low.rlib"
mark mid 9
expect_marks 'with no library' 7 9 1
echo 'kit of later stand-ins' > "$STAND_INS/kit/KIT-ID"
touch "$STAND_INS/kit/bin/rt"
forget_calls
expect_marks 'with another toolchain' 7 9 1
expect 'it proves nothing with another toolchain' is_called 'low$'

# What fails, and why.
echo '// wrong' > "$repository/crates/mid/src/lib.rt"
run
expect "with a wrong text it ends with $ended" ends_with 1
expect 'it does not say what is wrong' says 'this is not proved, says the stand-in'
echo '// a source' > "$repository/crates/mid/src/lib.rt"
expect_marks 'with the right text' 7 9 1
mark mid 10
(ulimit -f 16 && run && exit "$ended")
ended=$?
expect 'with a limit of the size of a file it succeeds' not ends_with 0
# By the signal, or as an error where the signal is ignored.
expect 'it does not say that a file is too large' grep -q -e 'File size limit exceeded' -e 'File too large' "$room/said"
expect_marks 'without that limit' 7 10 1
if mount_disk size=256k "$room/small" './bitset on a full disk'; then
    mv "$repository/out" "$room/out"
    ln -s "$room/small" "$repository/out"
    run
    expect 'with a full disk it succeeds' not ends_with 0
    expect 'it does not say that the disk is full' says 'No space left on device'
    rm "$repository/out"
    umount "$room/small"
    mv "$room/out" "$repository/out"
fi
path="$PATH"
PATH="${PATH#*:}"
if ! command -v rt > /dev/null || { PATH=/usr/bin:/bin && ! command -v rt > /dev/null; }; then
    expect_marks 'without a toolchain' 7 10 1
    mark mid 11
    run
    expect "without a toolchain, with a change, it ends with $ended" ends_with 127
fi
PATH="$path"
expect_marks 'with the toolchain again' 7 11 1
