# How `./gate` ends, and what runs ahead of it. To be sourced by tests/scripts.sh.
# shellcheck shell=bash disable=SC2154
set_up_library

# All that the gate runs beside `rt ci` here is what runs ahead of it, since it too has folders of its own.
for test in docs add misuse first_run edits c program refusals scripts; do
    printf '%s\n' '#!/bin/sh' 'echo 1 passed, 0 failed' > "$library/tests/$test.sh"
    chmod +x "$library/tests/$test.sh"
done
cp "$top/tests/ahead.sh" "$library/tests"
for signal in HUP INT QUIT TERM; do
    CI='' ended_by_signal gate "$signal" 'ci$' "$library/gate"
    CI='' ended_by_signal tests/ahead.sh "$signal" 'ci refusals' "$library/tests/ahead.sh"
done

take_seconds 0.1
CI='' expect_no_edit "$library/gate" "$library/gate"

# Two runs in one checkout: the second waits.
forget_calls
take_seconds 30
begun=()
for run in first second; do
    start_group env CI='' "$library/gate" < /dev/null > "$room/wrote" 2> "$room/$run"
    begun+=("$!")
    [ "$run" != first ] || expect 'gate does not begin' wait_until is_called 'ci$'
done
expect 'a second gate does not wait' wait_until grep -q 'another run' "$room/second"
kill -s TERM "${begun[@]}"
for run in "${begun[@]}"; do
    finish "$run"
    expect "a gate beside another ended with $ended" ends_with 143
done
take_seconds 0.1
