# What `./bitset` builds, and when: in a repository of three crates, each with a mark that the program then writes.
# To be sourced by tests/scripts.sh.
# shellcheck shell=bash disable=SC2154
set_up_repository
expect_marks 'from nothing' 1 1 1
expect 'it does not say what it proves' says 'bitset: proving and building mid'
forget_calls
expect_marks 'with nothing changed' 1 1 1
expect 'it proves what has not changed' not is_called '\(low\|mid\|bitset\)$'
mark mid 2
forget_calls
expect_marks 'with a change' 1 2 1
expect 'it does not prove what has changed' is_called 'mid$'
expect 'it proves what is below a change' not is_called 'low$'

# An edit that keeps the size and the time of the text.
touch -r "$repository/crates/low/src/marks.rt" "$room/time"
mark low 3
touch -r "$room/time" "$repository/crates/low/src/marks.rt"
expect_marks 'with a change that keeps size and time' 3 2 1

# Edits while it proves: this run has the texts that it began with, and the next one the new.
take_seconds 1
mark low 4
begin_until low
mark mid 4
expect_begun 'with an edit of a crate that is not begun' 4 2 1
expect_marks 'after an edit of a crate that was not begun' 4 4 1
mark mid 5
begin_until mid
mark mid 6
mark low 6
expect_begun 'with an edit of a crate that is begun, and of one below' 4 5 1
expect_marks 'after an edit of a crate that was begun, and of one below' 6 6 1
# In place, so that what bash reads next lies elsewhere.
cp "$repository/bitset" "$room/script"
mark bitset 2
begin_until bitset
sed 2,3d "$room/script" > "$repository/bitset"
expect_begun 'with an edit of the script' 6 6 2
cat "$room/script" > "$repository/bitset"
mark bitset 1
mkdir -p "$repository/crates/extra/src"
echo '// mark: new' > "$repository/crates/extra/src/lib.rt"
mark mid 7
begin_until mid
printf '%s\r\n' 'extra:' 'low: extra # lowest' 'mid: low' 'bitset: mid' > "$repository/crates.txt"
expect_begun 'with an edit of crates.txt' 6 7 1
take_seconds 0.1
run
expect 'an edit of crates.txt, which has CRLF now, is not heeded' grep -qx 'extra: new' "$room/wrote"
printf '%s\n' 'low:' 'mid: low' 'bitset: mid' > "$repository/crates.txt"
expect_marks 'with crates.txt as it was' 6 7 1

run with_options
expect "where options of bash are exported, with nothing changed, it ended with $ended" ends_with 0
mark bitset 3
run with_options
expect "where options of bash are exported it ended with $ended: $(tail -n 1 "$room/said")" ends_with 0
expect 'where options of bash are exported another program was run' wrote "$(marks 6 7 3)"
mark bitset 1
expect_marks 'with a text that it had' 6 7 1

# With sources that are older than the run nothing but their times is looked at.
sleep 3.1
expect_marks 'with older sources' 6 7 1
forget_calls
expect_marks 'with older sources, once more' 6 7 1
run env LC_ALL="${comma:-C}"
expect "under $comma it ends with $ended" ends_with 0
expect 'it asks rt where nothing has changed' not is_called version
mark low 7
expect_marks 'with a change of an older source' 7 7 1

# Another way to build the program, by a script that is newer than it.
sleep 3.1
expect_marks 'with older sources, before another script' 7 7 1
sed 's/^compile() {/&\n    : another way/' "$top/tools/program.sh" > "$repository/tools/program.sh"
forget_calls
expect_marks 'with another way to build' 7 7 1
expect 'it builds nothing in another way' is_called 'low$'
cp "$top/tools/program.sh" "$repository/tools"
mkdir -p "$repository/crates/mid/src/out"
echo '// mark: inside' > "$repository/crates/mid/src/out/inside.rt"
run
expect 'a module folder called out is not built' grep -qx 'mid: inside' "$room/wrote"
echo '// mark: more' > "$repository/crates/mid/src/out/inside.rt"
run
expect 'a change in a module folder called out is not built' grep -qx 'mid: more' "$room/wrote"
rm -r "$repository/crates/mid/src/out"
expect_marks 'without that module' 7 7 1
