# The folder that a release is written into, where nothing changes until everything is made. To be sourced by release.
# shellcheck shell=bash disable=SC2154

# Ends the script unless this is an empty folder, or one that can be made. Its whole path is then in `released`.
look_at_folder() {
    local at
    released="$(realpath -m -- "$1")"
    at="$released"
    until [ -e "$at" ]; do
        at="${at%/*}"
        at="${at:-/}"
    done
    { [ -d "$at" ] && [ -w "$at" ] && [ -x "$at" ]; } || stop "nothing can be written into $at"
    [ "$at" != "$released" ] || [ -z "$(ls -A -- "$at")" ] || stop "$released is not empty"
}

# Whether all is as it was committed, but for that folder. No file is one at which git is told not to look.
no_change() {
    local but=() changes files
    [[ "$released" != "$here"/* ]] || but=(":(exclude,literal)${released#"$here"/}")
    { changes="$(git -C "$here" status --porcelain --untracked-files=normal -- . "${but[@]}")" \
        && files="$(git -C "$here" ls-files -v)"; } || stop "git does not read the repository in $here"
    [ -z "$changes" ] && ! grep -qv '^H ' <<< "$files"
}

# Which commit is checked out, and of when it is. Who reads logs may have git write before each what it says of signatures.
read_commit() {
    commit="$(git -C "$here" rev-parse HEAD)"
    SOURCE_DATE_EPOCH="$(git -C "$here" log -1 --no-show-signature --format=%ct "$commit")"
    export SOURCE_DATE_EPOCH
}

# Writes the files of the commit into a folder, or some of its folders, whatever git is told of archives.
#   write_committed FOLDER [NAME..]
write_committed() {
    git -C "$here" -c tar.umask=0022 -c core.attributesFile=/dev/null archive "$commit" "${@:2}" | tar x -C "$1"
}

# Writes what was made into the folder, at once: no signal ends it in between.
hand_over() {
    local was_there=''
    trap '' HUP INT QUIT TERM
    look_at_folder "$released"
    [ ! -d "$released" ] || was_there=yes
    mkdir -p -- "$released"
    # Not with their owner, which many disks of others do not keep.
    cp -- "$folder"/* "$released" || {
        (cd "$folder" && printf '%s\0' *) | (cd "$released" && xargs -0 rm -f --)
        [ -n "$was_there" ] || rmdir -- "$released"
        stop "$released cannot be written"
    }
}
