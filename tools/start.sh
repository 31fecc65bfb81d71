# What every script here does first: nothing that whoever calls it has exported changes how bash works for it, or for
# what it starts. To be sourced. The script is run by `bash -p`, which takes no functions, options and start-up files
# from the environment, and its second command sees to that where it is run as `sh` or `bash SCRIPT`.
# shellcheck shell=bash
declare +x SHELLOPTS BASHOPTS
unset BASH_ENV ENV CDPATH GLOBIGNORE POSIXLY_CORRECT
# A hook of git names its own repository to what it runs, whatever folder that works in.
unset GIT_DIR GIT_WORK_TREE GIT_INDEX_FILE GIT_OBJECT_DIRECTORY GIT_COMMON_DIR

# Runs the script once more without the functions that are exported, where there are some: what it starts may be a script
# that takes them.
drop_functions() {
    local entry entries words=()
    mapfile -t -d '' entries < /proc/self/environ
    for entry in "${entries[@]}"; do
        [[ "$entry" != BASH_FUNC_*%%=* ]] || words+=(-u "${entry%%=*}")
    done
    [ "${#words[@]}" -eq 0 ] || exec env "${words[@]}" bash -p "$0" "$@"
}
drop_functions "$@"

# Makes the folders of PATH absolute, since scripts work in other folders than the one they are called in.
make_path_absolute() {
    local rest="$PATH:" folder path=''
    while [ -n "$rest" ]; do
        folder="${rest%%:*}"
        rest="${rest#*:}"
        [[ "$folder" = /* ]] || folder="$PWD/$folder"
        path+=":$folder"
    done
    PATH="${path#:}"
}
[[ ":$PATH:" != *:[!/]* ]] || make_path_absolute
