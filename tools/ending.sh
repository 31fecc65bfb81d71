# The processes that a script has started end with it, and its temporary files are removed, however it ends except by
# SIGKILL. To be sourced. Bash handles a signal between commands and in `wait`, so what takes long is begun by
# `start_group` and waited for, or run by `run_group`.
# shellcheck shell=bash

# The groups of processes that were started and may still run, by the number of their first process, which leads each. A
# process of the script's own group may be here too.
declare -gA groups=()
# Files and folders that go when the script ends, and the files that other runs wait for, which go last.
passing=()
locks=()
# Whether signals wait, and which does.
is_held=''
waiting=''
# How often the script was stopped, as by Ctrl-Z, and went on.
stops=0

# Between these two a signal waits, so that what is begun there is on a list when it is heeded.
hold_signals() { is_held=yes; }
heed_signals() {
    # First, so that what comes from here on is heeded at once.
    is_held=''
    case "$waiting" in
        '') ;;
        TSTP)
            waiting=''
            stop_all
            ;;
        *) end_by "$waiting" ;;
    esac
}

# Starts a command as a group of processes of its own, which `$!` numbers.
start_group() {
    hold_signals
    set -m
    "$@" &
    set +m
    groups[$!]=1
    heed_signals
}

# Makes the folder `room` for the script, which goes with it, and in that one for the temporary files of what it runs,
# which that leaves where it is ended. rt runs tests and programs as nobody, who has to get there.
make_room() {
    hold_signals
    # Bash may lose a SIGINT that comes while it takes in what $(..) gives, and none while it reads.
    IFS= read -r -d '' room < <(trap '' HUP INT QUIT TERM TSTP && mktemp -d) || true
    room="${room%$'\n'}"
    # TMPDIR may be relative to the current folder, which will be another one.
    [[ "$room" != [!/]* ]] || room="$PWD/$room"
    [ -z "$room" ] || passing+=("$room")
    heed_signals
    [ -n "$room" ] || return
    export TMPDIR="$room/temporary"
    mkdir "$TMPDIR" && chmod 711 "$room" && chmod 1777 "$TMPDIR"
}

# Whether the system runs programs that are in a folder: not where its disk is mounted with noexec.
runs_programs() {
    local status=0
    printf '#!/bin/sh\n' > "$1/.runs" && chmod +x "$1/.runs" || return
    "$1/.runs" 2> /dev/null || status=1
    rm -f "$1/.runs"
    return "$status"
}

# Waits until no other run has a file, which is there from then on until this one ends. What is started meanwhile has it
# too, for it lives on where its script is killed.
#   lock FILE WHAT      WHAT says what another run does
lock() {
    local status was_waiting=''
    while true; do
        exec {locked}>> "$1" || return
        status=0
        flock -n -E 75 "$locked" || status=$?
        if [ "$status" -eq 75 ]; then
            [ -n "$was_waiting" ] || echo "${0##*/}: another run $2: waiting for its end" >&2
            was_waiting=yes
            status=0
            run_group flock "$locked" || status=$?
        fi
        if [ "$status" -ne 0 ]; then
            echo "${0##*/}: $1 cannot be locked" >&2
            return "$status"
        fi
        # The run that had it took it away.
        [ ! "$1" -ef "/dev/fd/$locked" ] || break
        exec {locked}>&-
    done
    locks+=("$1")
}

# Waits for one, and returns its status.
wait_group() {
    local status had=''
    # Where a signal stopped the script meanwhile, `wait` ends before the process does.
    until [ "$had" = "$stops" ]; do
        had="$stops"
        status=0
        wait "$1" || status=$?
    done
    unset "groups[$1]"
    return "$status"
}

run_group() {
    start_group "$@"
    wait_group "$!"
}

# Sends a signal to all that runs.
signal_groups() {
    local group
    for group in "${!groups[@]}"; do
        kill -s "$1" -- "-$group" 2> /dev/null || kill -s "$1" "$group" 2> /dev/null || true
    done
}

# Stops the script and what it has started, until it is to go on.
stop_all() {
    if [ -n "$is_held" ]; then
        waiting="${waiting:-TSTP}"
        return
    fi
    signal_groups STOP
    kill -s STOP "$$"
    signal_groups CONT
    stops=$((stops + 1))
}

# Takes the groups of which nothing runs off the list.
forget_ended() {
    local group
    for group in "${!groups[@]}"; do
        kill -0 -- "-$group" 2> /dev/null || kill -0 "$group" 2> /dev/null || unset "groups[$group]"
    done
}

# Ends what runs, by force where it takes longer than some seconds.
end_groups() {
    local turns
    signal_groups TERM
    for ((turns = 0; turns < 50; turns++)); do
        forget_ended
        [ "${#groups[@]}" -gt 0 ] || return 0
        sleep 0.1
    done
    signal_groups KILL
}

# A process that rt started ends a moment after rt, and may write until then.
clean_up() {
    local turns
    trap '' HUP INT QUIT TERM TSTP
    end_groups
    for ((turns = 0; turns < 10; turns++)); do
        ! rm -rf -- "${passing[@]}" 2> /dev/null || break
        sleep 0.2
    done
    rm -f -- "${locks[@]}"
    passing=()
    locks=()
}

# Ends the script as the signal ends a process that does nothing about it, but without a file of its memory.
end_by() {
    if [ -n "$is_held" ]; then
        waiting="$1"
        return
    fi
    clean_up
    trap - EXIT "$1"
    ulimit -c 0
    kill -s "$1" "$$"
    exit $((128 + $(kill -l "$1")))
}

trap clean_up EXIT
for ending in HUP INT QUIT TERM; do
    # shellcheck disable=SC2064  # the signal's name is that of now
    trap "end_by $ending" "$ending"
done
trap stop_all TSTP
# A group that is not the terminal's may write there.
trap '' TTOU
