# The packages made twice of the source release, which gives the same bytes. To be sourced by tests/release.sh.
# shellcheck shell=bash disable=SC2154

try_again() {
    local command
    for command in gcc make ar strip objdump dpkg-deb aarch64-linux-gnu-{gcc,ar,strip}; do
        if ! has "$command"; then
            left_out "the same bytes again, without $command"
            return
        fi
    done
    try 'the packages are made again' "$here/release/make_again" "$release" "$room/once"
    try 'they are made elsewhere, later' "$here/release/make_again" "$release" "$room/some where/else"
    try 'both have the same bytes' diff -r "$room/once" "$room/some where/else"
    if same_compilers; then
        try 'they are the bytes of the release' diff -r "$room/once" "$release"
    else
        left_out 'the bytes of the release again, which other compilers made'
    fi
}

# Whether the compilers here are those that say in the shared objects of the release that they made them.
same_compilers() {
    local folder
    for folder in "$release" "$room/once"; do
        mkdir -p "$room/compilers/${folder##*/}"
        find "$folder" -name '*-linux-*.tar.gz' -exec tar xzf {} -C "$room/compilers/${folder##*/}" \;
    done
    diff <(made_by "${release##*/}") <(made_by once) > "$room/said"
}

made_by() {
    local file
    while read -r file; do
        readelf -p .comment "$file" | grep -v '^File:'
    done < <(find "$room/compilers/$1" -name 'libbit_set.so.*' | sort)
}
