#!/usr/bin/env -S bash -p
# Tries the tests themselves: which verdicts they give on wrong bodies, what they record, and what the gate says that it
# left out. The last line is 'N passed, M failed'.
case $- in *p*) ;; *) exec bash -p "$0" "$@" ;; esac
set -euo pipefail
# shellcheck source=tools/python.sh
. "$(dirname "$(readlink -f "$0")")/../tools/python.sh"
