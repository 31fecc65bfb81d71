#!/usr/bin/env -S bash -p
# Tries each edit of tests/edits.txt, or of the crates or the CRATE/EDIT that are named, over the libraries that the checkout has built,
# and writes tests/edits.csv. A run that was stopped goes on where it was; --anew tries all again. The last line is
# 'N passed, M failed'. With --left it tries none, and names those that were not rejected over the text that is there.
case $- in *p*) ;; *) exec bash -p "$0" "$@" ;; esac
set -euo pipefail
# shellcheck source=tools/python.sh
. "$(dirname "$(readlink -f "$0")")/../tools/python.sh"
