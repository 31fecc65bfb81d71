#!/usr/bin/env -S bash -p
# Tries the edits of these crates that tests/gate_edits.txt names, over the libraries below them as `rt ci` has just proved
# them here. The last line is 'N passed, M failed'.
case $- in *p*) ;; *) exec bash -p "$0" "$@" ;; esac
set -euo pipefail
# shellcheck source=tools/python.sh
. "$(dirname "$(readlink -f "$0")")/../tools/python.sh"
