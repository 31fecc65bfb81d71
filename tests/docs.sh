#!/usr/bin/env -S bash -p
# Compares what the documents quote with the sources, examples and contracts, and follows their links. The last line is
# 'N passed, M failed'.
case $- in *p*) ;; *) exec bash -p "$0" "$@" ;; esac
set -euo pipefail
# shellcheck source=tools/python.sh
. "$(dirname "$(readlink -f "$0")")/../tools/python.sh"
