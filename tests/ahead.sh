#!/usr/bin/env -S bash -p
# Has `rt ci` prove the longest chain of crates ahead of the gate's own run, which takes what another run on the machine has
# proved or is proving: by as many processes a crate as rt plans, while the gate's own run proves what else there is by one
# each. It counts nothing: the gate's own run says what is not proved. The last line is 'N passed, M failed'.
case $- in *p*) ;; *) exec bash -p "$0" "$@" ;; esac
set -uo pipefail
# shellcheck source=tools/start.sh
. "$(dirname "$(readlink -f "$0")")/../tools/start.sh"
cd "$(dirname "$(dirname "$(readlink -f "${BASH_SOURCE[0]}")")")" || exit 1
. tools/ending.sh
# rt keeps the copy there that it proves, and leaves it where it is ended.
make_room || exit 1
# Bash reads all of this before it begins, so an edit of this script meanwhile is for the next run.
{
    for crate in refusals roaring_refusals; do
        run_group rt ci "$crate" < /dev/null > "$room/said" 2>&1
        echo "ahead: $crate: $(tail -n 1 "$room/said")"
    done
    echo '0 passed, 0 failed'
    exit
}
