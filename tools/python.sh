# Runs, in place of the script that sources this, the Python file with its name beside it, on the top of the repository and
# the script's arguments. To be sourced.
# shellcheck shell=bash
# shellcheck source=tools/start.sh
. "$(dirname "$(readlink -f "${BASH_SOURCE[0]}")")/start.sh"
script="$(readlink -f "$0")"
# Whatever the locale, texts are UTF-8.
export PYTHONUTF8=1
# A file imports what is beside it.
unset PYTHONSAFEPATH
exec python3 -B "${script%.sh}.py" "$(dirname "$(dirname "$script")")" "$@"
