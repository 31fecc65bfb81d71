# What `./bitset` takes for another toolchain, and what it makes of whatever else it is run in. To be sourced by
# tests/scripts.sh.
# shellcheck shell=bash disable=SC2154
set_up_repository
mark low 50
expect_marks 'before another toolchain' 50 1 1

# Another prover under the same version, and a command rt that does not work any more.
echo '# another prover' >> "$STAND_INS/kit/bin/rattle"
forget_calls
expect_marks 'with another prover of the same version' 50 1 1
expect 'it proves nothing with another prover of the same version' is_called 'low$'
cp "$STAND_INS/kit/bin/rt" "$room/rt"
printf '%s\n' '#!/bin/sh' 'echo "rt cannot start" >&2' 'exit 3' > "$STAND_INS/kit/bin/rt"
run
expect "with a command rt that fails it ends with $ended" ends_with 1
expect 'it does not say why a command rt fails' says 'rt cannot start'
expect 'it runs the program where the command rt fails' wrote ''
cp "$room/rt" "$STAND_INS/kit/bin/rt"
expect_marks 'with the command rt as it was' 50 1 1

# Commands that are named from the folder that it is run in.
mark low 51
cd "$STAND_INS/kit" || exit 1
PATH="bin:${PATH//"$STAND_INS/kit/bin:"/}" run
expect "with a relative PATH it ends with $ended: $(tail -n 1 "$room/said")" ends_with 0
expect 'with a relative PATH another program was run' wrote "$(marks 51 1 1)"
cd "$top" || exit 1

# Locks as on NFS, where only a file that may be written has one, and then none at all.
mkdir "$room/nfs" "$room/locked_by_add"
cat > "$room/nfs/flock" << LOCKS
#!/bin/sh
for word; do :; done
case "\$(sed -n 's/^flags:.*\(.\)/\1/p' "/proc/self/fdinfo/\$word")" in
    0) echo "flock: \$word: Bad file descriptor" >&2; exit 65 ;;
esac
exec $(type -P flock) "\$@"
LOCKS
printf '%s\n' '#!/bin/sh' 'echo "flock: No locks available" >&2' 'exit 71' > "$room/none_flock"
chmod +x "$room/nfs/flock" "$room/none_flock"
mark low 52
PATH="$room/nfs:$PATH" run
expect "where a folder has no lock it ends with $ended: $(tail -n 1 "$room/said")" ends_with 0
expect 'where a folder has no lock another program was run' wrote "$(marks 52 1 1)"
touch "$room/locked_by_add/crates.txt"
(cd "$room/locked_by_add" && PATH="$room/nfs:$PATH" "$top/add") > "$room/wrote" 2> "$room/said" < /dev/null
expect "add fails where a folder has no lock: $(tail -n 1 "$room/said")" [ -d "$room/locked_by_add/crates/bit_set" ]
expect 'add leaves a file of its lock' [ -z "$(find "$room/locked_by_add" -name '.*lock')" ]
mv "$room/none_flock" "$room/nfs/flock"
mark low 53
PATH="$room/nfs:$PATH" run
expect "where there are no locks it ends with $ended" ends_with 1
expect 'it does not say why there are no locks' says 'No locks available'
expect 'it says that another run proves where there are no locks' not says 'another run'
ended=0
(cd "$room/locked_by_add" && PATH="$room/nfs:$PATH" "$top/add") > "$room/wrote" 2> "$room/said" < /dev/null || ended=$?
expect "add where there are no locks ends with $ended" ends_with 1
expect 'add does not say why there are no locks' says 'No locks available'
expect 'add says that another run works where there are no locks' not says 'another run'
expect_marks 'with locks' 53 1 1

# A full disk for temporary files. The sources are so new that a later edit might have their times, so that the next run
# is to read them.
if mount_disk size=4k "$room/full" './bitset with a full disk for temporary files'; then
    # Of so many that what is known of them does not fit into a pipe, as in the whole repository.
    for ((number = 0; number < 500; number++)); do
        echo > "$repository/crates/low/specs/$(printf '%0150d' "$number").antt"
    done
    mark low 54
    head -c 8192 /dev/zero > "$room/full/theirs" 2> /dev/null
    TMPDIR="$room/full" run
    expect "with a full disk for temporary files it ends with $ended: $(tail -n 1 "$room/said")" ends_with 0
    expect 'with a full disk for temporary files another program was run' wrote "$(marks 54 1 1)"
    forget_calls
    expect_marks 'after a full disk for temporary files' 54 1 1
    expect 'after a full disk it takes new sources for unchanged' is_called version
    umount "$room/full"
fi

# A disk for what is built from which no program is run.
if mount_disk noexec "$room/no_programs" './bitset on a disk from which no program is run'; then
    mv "$repository/out" "$room/out"
    ln -s "$room/no_programs" "$repository/out"
    forget_calls
    run
    expect "on a disk with no programs it ends with $ended" ends_with 1
    expect 'it does not say that a disk has no programs' says 'no program can be run from'
    expect 'it proves what it cannot run' not is_called 'low$'
    rm "$repository/out"
    umount "$room/no_programs"
    mv "$room/out" "$repository/out"
fi
expect_marks 'on the disk that it was on' "$(sed -n 's/.*mark: //p' "$repository/crates/low/src/marks.rt")" 1 1
