# What is left where `./bitset` and `./look` are ended by signals. To be sourced by tests/scripts.sh.
# shellcheck shell=bash disable=SC2154
set_up_repository

for signal in HUP INT QUIT TERM; do
    mark low "30 $signal"
    ended_by_signal bitset "$signal" 'low$' "$repository/bitset"
    expect "bitset by SIG$signal leaves its copy" [ ! -e "$repository/out/copy" ]
    ended_by_signal look "$signal" try "$repository/look"
done
expect_marks 'after runs that were ended' '30 TERM' 1 1

# A signal that comes after a beginning and before what was begun is on a list.
cat > "$room/begins" << 'SCRIPT'
signal="$1"
. "$2/tools/ending.sh"
set() {
    builtin set "$@"
    [ "$1" = -m ] || { echo "sleep $! 30" >> "$STAND_INS/calls" && kill -s "$signal" "$$"; }
}
mktemp() { command mktemp "$@" && kill -s "$signal" "$$"; }
"${@:3}"
SCRIPT
for signal in HUP INT QUIT TERM; do
    for begins in make_room 'start_group sleep 30'; do
        forget_calls
        ended=0
        # shellcheck disable=SC2086  # a command and its words
        { env --default-signal=HUP,INT,QUIT,TERM bash "$room/begins" "$signal" "$top" $begins || ended=$?; } 2> "$room/said"
        expect "$begins by SIG$signal: it ends with $ended" ends_with $((128 + $(kill -l "$signal")))
        expect "$begins by SIG$signal: what it started is not ended" wait_until all_are_gone
        expect "$begins by SIG$signal: it leaves temporary files" is_empty "$TMPDIR"
    done
done

# What is stopped, as by Ctrl-Z, until it goes on.
prover_is() { grep -q "^[0-9]* (.*) $1 " "/proc/$(sed -n 's/^rattle \([0-9]*\) .*/\1/p' "$STAND_INS/calls")/stat"; }
mark low 31
take_seconds 2
begin_until low
kill -s TSTP "$begun"
expect 'a run that is stopped goes on' wait_until grep -q '^[0-9]* (.*) T ' "/proc/$begun/stat"
expect 'a prover goes on where its run is stopped' wait_until prover_is T
kill -s CONT "$begun"
expect 'a prover does not go on with its run' wait_until prover_is S
take_seconds 0.1
expect_begun 'after a stop' 31 1 1
