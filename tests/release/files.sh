# The files of a release as they are. To be sourced by tests/release.sh.
# shellcheck shell=bash disable=SC2034,SC2154

try_files() {
    try 'the sums' sums
    try 'PROOF.txt has a verdict for each processor' verdicts
    try 'PROOF.txt says what is trusted and how to check it again' tells
    if has lintian; then
        try 'lintian' lintian --allow-root --fail-on error --tag-display-limit 0 "$release"/*.deb
        sed 's/^/    /' "$room/said"
    else
        left_out 'lintian'
    fi
    local wheel
    has auditwheel || left_out 'auditwheel, which is not here'
    for wheel in "$release"/*.whl; do
        try "${wheel##*/} takes what its tag says" takes_little "$wheel"
        try "${wheel##*/} is for older pips too" names_both "$wheel"
        ! has auditwheel || try "auditwheel of ${wheel##*/}" agrees "$wheel"
    done
    given="$room/try"
    mkdir -p "$given"
    tar xzf "$release/bit_set-$version.tar.gz" -C "$given"
    source="$given/bit_set-$version"
    cp "$release"/* "$given"
    try 'PROOF.txt is the same in each package' hold_proof
    try 'what the packages of both machines have in one place is the same' agree_in_places
    try 'the shared objects export the calls of the headers alone' export_calls
}

# Of each file but their own.
sums() {
    (cd "$release" && sha256sum -c SHA256SUMS && [ "$(cut -d ' ' -f 3 SHA256SUMS)" = "$(LC_ALL=C ls -I SHA256SUMS)" ])
}

# One for each of three files of four processors, of which each says that all is proved.
verdicts() {
    grep -q '^Commit: *[0-9a-f]\{40\}$' "$release/PROOF.txt" \
        && [ "$(grep -c '^[a-z0-9-]*  *bit_[a-z0-9]*  *logic=proved ' "$release/PROOF.txt")" -eq 12 ]
}

tells() {
    local line
    for line in 'Toolchain: *[^ ].*' 'Checksum of logic: *[0-9a-f]\{64\}' 'What is trusted: .*' '    ./release FOLDER'; do
        grep -qx "$line" "$release/PROOF.txt" || return
    done
}

# A module takes nothing of the system but glibc, and that no newer than the tag in its wheel's name.
takes_little() {
    local at="$room/wheel" tag newest
    tag="$(cut -d _ -f 1,2 --output-delimiter=. <<< "${1##*manylinux_}")"
    rm -rf "$at" && python3 -m zipfile -e "$1" "$at" || return
    newest="$(objdump -T "$at"/bit_set/*.so | sed -n 's/.*GLIBC_\([0-9.]*\).*/\1/p' | sort -V | tail -n 1)"
    echo "it takes glibc $newest"
    ! readelf -d "$at"/bit_set/*.so | grep '(NEEDED)' | grep -v '\[libc\.so\.6\]' \
        && [ "$(printf '%s\n' "$newest" "$tag" | sort -V | tail -n 1)" = "$tag" ]
}

# A wheel's name has the word for its tag that pip before 20.3 knows too, and the file about it has both.
names_both() {
    local tags="${1##*-}"
    [[ "$tags" = *.manylinux2014_* ]] && [ "$(sed -n 's/^Tag: cp38-abi3-//p' "$room"/wheel/*/WHEEL | paste -sd . -)" = "${tags%.whl}" ]
}

# The tag in a wheel's name is one that auditwheel gives it.
agrees() {
    local tag="${1##*-}"
    auditwheel show "$1" | tr '\n' ' ' | grep -F "\"${tag%%.*}\""
}

hold_proof() {
    local file at="$room/opened"
    for file in "$release"/*; do
        rm -rf "$at" && mkdir "$at" || return
        case "$file" in
            *.tar.gz | *.crate) tar xzf "$file" -C "$at" ;;
            */libbit-set-dev_*.deb) dpkg-deb -x "$file" "$at" ;;
            *.whl) python3 -m zipfile -e "$file" "$at" ;;
            *) continue ;;
        esac
        cmp "$(find "$at" -name PROOF.txt)" "$release/PROOF.txt" || return
    done
}

# Debian installs the packages of two machines beside each other.
agree_in_places() {
    local architecture package file at="$room/beside-each-other"
    mkdir -p "$at"
    for architecture in amd64 arm64; do
        for package in "$release"/libbit-set*_"$architecture".deb; do
            dpkg-deb -x "$package" "$at/$architecture" || return
        done
    done
    while read -r file; do
        [ ! -e "$at/arm64/$file" ] || cmp "$at/amd64/$file" "$at/arm64/$file" || return
    done < <(cd "$at/amd64" && find . -type f)
}

# The calls that the headers declare, a name a line.
declared() {
    LC_ALL=C sed -n '/^static/d; s/^[a-z][a-z0-9_ ]*[ *]\(bit_[a-z0-9_]*\)(.*/\1/p' "$source"/include/*.h | LC_ALL=C sort
}

export_calls() {
    local machine file at="$room/exported"
    mkdir -p "$at"
    for machine in x86_64 aarch64; do
        tar xzf "$release/bit_set-$version-linux-$machine.tar.gz" -C "$at" || return
        while read -r file; do
            echo "$file"
            diff <(declared) <(nm -D --defined-only "$file" | cut -d ' ' -f 3 | LC_ALL=C sort) || return
        done < <(find "$at/bit_set-$version-linux-$machine" -name 'libbit_set.so.*')
    done
}
