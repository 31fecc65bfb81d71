# Two runs of `./bitset` in one repository, and its input and output. To be sourced by tests/scripts.sh.
# shellcheck shell=bash disable=SC2154
set_up_repository

# Starts a second run beside the one that begin_until began, and has what it writes and says in `second` and `waits`.
begin_second() {
    start_group "$repository/bitset" u8 < /dev/null > "$room/second" 2> "$room/waits"
    second=$!
    wait_until grep -q 'another run' "$room/waits"
}

expect_second() {
    local what="$1"
    finish "$second"
    expect "$what: the second run ended with $ended" ends_with 0
    expect "$what: the second run ran another program" [ "$(cat "$room/second")" = "$(marks "${@:2}")" ]
    expect "$what: the second run does not say that it waits" grep -q 'another run' "$room/waits"
}

take_seconds 1
mark low 20
begin_until low
begin_second
expect_begun 'beside another' 20 1 1
expect_second 'beside another' 20 1 1
expect 'two runs prove one crate twice' [ "$(calls 'low$')" -eq 1 ]

mark low 21
begin_until low
begin_second
mark low 22
expect_begun 'beside another, with an edit' 21 1 1
expect_second 'beside another, with an edit' 22 1 1

mark low 23
begin_until low
kill -KILL "$begun"
finish "$begun"
take_seconds 0.1
begin_second
expect_second 'after a run that was killed' 23 1 1
expect 'a prover outlives the runs' all_are_gone

# A prover that outlives its run, and writes what it made of older sources once the folder was made anew. In the second
# turn the file that says so is removed too.
for removed in out 'out .bitset.lock'; do
    mark low "24 $removed"
    take_seconds 1
    begin_until low
    kill -KILL "$begun"
    finish "$begun"
    # shellcheck disable=SC2086  # each word is a name
    (cd "$repository" && rm -rf $removed)
    mark low "25 $removed"
    take_seconds 0.1
    echo 2 > "$STAND_INS/seconds.mid"
    expect_marks "beside a prover that was left, without $removed" "25 $removed" 1 1
    rm "$STAND_INS/seconds.mid"
    expect_marks "after a prover that was left, without $removed" "25 $removed" 1 1
done

# Files of a library that change as a crate is proved over it.
mark mid 2
echo 1 > "$STAND_INS/seconds.mid"
begin_until mid
for file in "$repository"/out/low.rlib/*; do
    echo 'low: another' > "$file"
done
finish "$begun"
rm "$STAND_INS/seconds.mid"
expect 'a program is run over a library that was changed' not grep -q another "$room/wrote"
mark mid 1
expect_marks 'after a library was changed' "25 out .bitset.lock" 1 1

# Input and output that cannot be read and written.
"$repository/bitset" <&- > "$room/wrote" 2> "$room/said"
ended=$?
expect "with a closed input it ends with $ended" ends_with 4
mark low 24
"$repository/bitset" <&- > "$room/wrote" 2> "$room/said"
ended=$?
expect "with a closed input and a change it ends with $ended" ends_with 4
mark low 25
"$repository/bitset" < /dev/null >&- 2> "$room/said"
ended=$?
expect "with a closed output and a change it ends with $ended" ends_with 4
expect 'what is built with a closed output is another program' [ "$("$repository/bitset" u8 < /dev/null)" = "$(marks 25 1 1)" ]

look() {
    ended=0
    "$repository/look" "$@" 2> "$room/said" || ended=$?
}

look u8 <<< 'count a' > "$room/wrote"
expect "look ends with $ended" ends_with 0
expect 'look gives the program other words or another input' wrote $'tried: try -- u8\ncount a'
expect 'look shows what rt says of a program that ended' not says 'run=ended'
expect 'look does not show what the program says' says 'program: said'
with_options "$repository/look" u8 <<< 'count a' > "$room/wrote" 2> "$room/said"
expect 'look writes something else where options of bash are exported' wrote $'tried: try -- u8\ncount a'
mkdir "$room/relative"
cd "$room" || exit 1
TMPDIR=relative look u8 <<< 'count a' > "$room/wrote"
expect "look with a relative folder for temporary files ends with $ended" ends_with 0
expect 'look leaves something in a relative folder' is_empty "$room/relative"
cd "$top" || exit 1
STAND_IN_STATUS=3 look < /dev/null > "$room/wrote"
expect "look of a program that ends with 3 ends with $ended" ends_with 3
for input in "$room" '&-'; do
    if [ "$input" = '&-' ]; then
        look <&- > "$room/wrote"
    else
        look < "$input" > "$room/wrote"
    fi
    expect "look that cannot read from $input ends with $ended" ends_with 4
    expect "look does not say that it cannot read from $input" says 'read failed'
done
STAND_IN_STATUS=2 look u9 <&- > "$room/wrote"
expect "look of a program that ends with 2 before it reads ends with $ended" ends_with 2
look < /dev/null > /dev/full
expect "look with a full output ends with $ended" ends_with 4
expect 'look does not say that it cannot write' says 'write failed'
look < /dev/null >&-
expect "look with a closed output ends with $ended" ends_with 4
if mount_disk size=64k "$room/temporary_disk" './look with a full disk for temporary files'; then
    head -c 200000 /dev/zero | TMPDIR="$room/temporary_disk" look > "$room/wrote"
    expect 'look does not say that the disk of its temporary files is full' says 'nothing more can be written'
    expect 'look leaves something on a full disk' is_empty "$room/temporary_disk"
    umount "$room/temporary_disk"
fi
