#!/usr/bin/env -S bash -p
# Prints what the proofs cost of the crates that are named, or of all: processor seconds of proof and of tests, and the ten
# slowest functions. One crate after another, with one job each: of all crates it takes hours.
case $- in *p*) ;; *) exec bash -p "$0" "$@" ;; esac
set -euo pipefail
# shellcheck source=tools/python.sh
. "$(dirname "$(readlink -f "$0")")/../tools/python.sh"
