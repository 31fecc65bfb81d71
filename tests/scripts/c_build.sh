# What `bindings/c/build` builds, and what it leaves. To be sourced by tests/scripts.sh.
# shellcheck shell=bash disable=SC2154
set_up_library
expect 'bindings/c/build fails' "$c/build" "$room/built"
for file in libbit_set.a libbit_set.so bit_set.h bit_set32.h bit_roaring.h bit_set.pc; do
    expect "bindings/c/build makes no $file" [ -s "$room/built/$file" ]
done
expect 'bindings/c/build --proved fails' "$c/build" "$room/built" --proved
expect 'bindings/c/build fails in a make that has another BUILD' env MAKEFLAGS=' -- BUILD=theirs' "$c/build" "$room/built" --proved
expect 'bindings/c/build fails where make is to say alone what it would do' env MAKEFLAGS=n "$c/build" "$room/built" --proved
expect 'bindings/c/build fails where options of bash are exported' with_options "$c/build" "$room/built" --proved
expect 'bindings/c/build fails where its input is closed' "$c/build" "$room/built" --proved <&-
for closed in '>&-' '2>&-' '<&- >&- 2>&-'; do
    ended=0
    eval '"$c/build" "$room/built" --proved > "$room/wrote" 2> "$room/said"' "$closed" || ended=$?
    expect "bindings/c/build $closed ends with $ended" ends_with 0
done
mkdir "$room/who's"
expect 'bindings/c/build fails where the path of its temporary files has a quote' env TMPDIR="$room/who's" "$c/build" "$room/built"
expect 'bindings/c/build leaves temporary files' is_empty "$TMPDIR"
for signal in HUP INT; do
    ended_by_signal bindings/c/build "$signal" 'bit_set_c$' "$c/build" "$room/built"
done
for signal in QUIT TERM; do
    ended_by_signal 'bindings/c/build --proved' "$signal" 'bit_set_c$' "$c/build" "$room/built" --proved
done

# A disk that is full, or is only to be read: what is there stays.
if mount_disk size=1000k "$room/disk" 'bindings/c/build on a disk that is full or only to be read'; then
    expect 'bindings/c/build fails on a small disk' "$c/build" "$room/disk" --proved
    (cd "$room/disk" && find . -type f -exec sha256sum {} + | sort) > "$room/sums"
    head -c 1000000 /dev/zero > "$room/disk/theirs" 2> /dev/null
    expect 'bindings/c/build succeeds on a full disk' not "$c/build" "$room/disk" --proved
    rm "$room/disk/theirs"
    expect 'bindings/c/build changes what is on a full disk' cmp "$room/sums" <(cd "$room/disk" && find . -type f -exec sha256sum {} + | sort)
    mount -o remount,ro "$room/disk"
    forget_calls
    expect 'bindings/c/build succeeds on a disk that is only to be read' not "$c/build" "$room/disk" --proved
    expect 'bindings/c/build proves what it cannot write' not is_called 'bit_set_c$'
    umount "$room/disk"
fi

# A disk for temporary files from which no program is run.
if mount_disk noexec "$room/no_programs" 'bindings/c/build with temporary files on a disk from which no program is run'; then
    forget_calls
    ended=0
    TMPDIR="$room/no_programs" "$c/build" "$room/built" > "$room/wrote" 2> "$room/said" < /dev/null || ended=$?
    expect "bindings/c/build on a disk with no programs ends with $ended" ends_with 1
    expect 'bindings/c/build does not say that a disk has no programs' says 'set TMPDIR to another folder'
    expect 'bindings/c/build proves what it cannot build' not is_called 'bit_set_c$'
    expect 'bindings/c/build leaves something on a disk with no programs' is_empty "$room/no_programs"
    umount "$room/no_programs"
fi

# Two runs for one folder: the second waits.
take_seconds 1
forget_calls
start_group "$c/build" "$room/built" < /dev/null > "$room/wrote" 2> "$room/said"
begun=$!
expect 'bindings/c/build does not begin' wait_until is_called 'bit_set_c$'
"$c/build" "$room/built" < /dev/null > "$room/second" 2> "$room/waits"
ended=$?
expect "a second bindings/c/build ended with $ended" ends_with 0
expect 'a second bindings/c/build does not wait' grep -q 'another run' "$room/waits"
finish "$begun"
expect "bindings/c/build beside another ended with $ended" ends_with 0
take_seconds 0.1
