# Tests that take long, which are ended by signals. To be sourced by tests/scripts.sh.
# shellcheck shell=bash disable=SC2154
set_up_repository
set_up_library
set_up_waiting

# The tests of edits, over libraries that are only named here.
cp -r "$top"/tests/{edits,{edits,gate_edits}.txt,{edits,copies}.py,edits.sh} "$library/tests"
for name in $(sed -n 's/^\([a-z_]*\):.*/\1/p' "$library/crates.txt"); do
    mkdir -p "$library/crates/$name/out/rlib/$name.rlib"
done
for signal in HUP TERM; do
    ended_by_signal tests/edits.sh "$signal" 'bit_set_c$' "$library/tests/edits.sh" bit_set_c
done
# What stands for the prover proves no crate.
cp "$top"/tests/cost.{sh,py} "$library/tests"
ended=0
"$library/tests/cost.sh" bit_set_c > "$room/wrote" 2> "$room/said" < /dev/null || ended=$?
expect "tests/cost.sh of what is not proved ends with $ended: $(cat "$room/said")" ends_with 1
expect 'tests/cost.sh does not say what is not proved' grep -q '^bit_set_c .* NOT PROVED$' "$room/wrote"
find "$library/crates" -mindepth 1 -maxdepth 1 ! -name 'bit_*_c' -exec rm -r {} +

# Tests that take long, over what only begins: the library for C, an edit that is compiled, the program's sources, and a
# program that stands for those that are tried, and for what tries them.
cp -r "$top"/tests/{{c,misuse}.sh,shim.c,c_surface.py} "$library/tests"
mkdir "$library/tests/misuse" "$repository/tests"
cp "$top/tests/first_run.sh" "$repository/tests"
echo 'a text' > "$library/crates/bit_set_c/src/text.rt"
printf '%s\n' 'crate: bit_set_c' 'file: src/text.rt' 'old: a text' 'new: another' 'says: none' > "$library/tests/misuse/a.edit"
for signal in INT TERM; do
    ended_by_signal tests/c.sh "$signal" 'bit_set_c$' "$library/tests/c.sh"
    ended_by_signal tests/misuse.sh "$signal" try "$library/tests/misuse.sh"
    ended_by_signal tests/first_run.sh "$signal" 'bitset$' "$repository/tests/first_run.sh"
    ended_by_signal tests/program.sh "$signal" waits "$top/tests/program.sh" "$waits"
    ended_by_signal tests/refusals.sh "$signal" waits "$top/tests/refusals.sh" "$waits" "$waits" "$waits"
    ended_by_signal tests/scaling.sh "$signal" waits env PATH="$room/waiting:$PATH" "$top/tests/scaling.sh" "$waits"
    ended_by_signal tests/add.sh "$signal" waits env PATH="$room/waiting:$PATH" "$top/tests/add.sh"
done
rm -r "$library/tests/misuse" "$library/crates/bit_set_c/src/text.rt"
