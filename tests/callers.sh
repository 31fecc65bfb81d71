#!/usr/bin/env -S bash -p
# Proves the callers of tests/callers, or those that are named, over the libraries that the checkout has built, and writes
# tests/callers.csv. A caller whose row says that it is proved is proved again only where it or a library below it changed;
# --anew proves all again. The last line is 'N passed, M failed'.
case $- in *p*) ;; *) exec bash -p "$0" "$@" ;; esac
set -euo pipefail
# shellcheck source=tools/python.sh
. "$(dirname "$(readlink -f "$0")")/../tools/python.sh"
