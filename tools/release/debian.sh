# The Debian packages libbit-setABI, libbit-set-dev and python3-bit-set. To be sourced by release.
# shellcheck shell=bash disable=SC2001,SC2154

maintainer='The bit_set authors <maintainers@users.noreply.vindauke.example>'

#   make_debian MACHINE
make_debian() {
    local machine="$1" architecture triplet
    case "$machine" in
        x86_64) architecture=amd64 ;;
        aarch64) architecture=arm64 ;;
    esac
    triplet="$machine-linux-gnu"
    local libraries="usr/lib/$triplet" trees="$room/debian-$architecture" library="libbit-set$abi"
    local runtime="$trees/$library" development="$trees/libbit-set-dev" module="$trees/python3-bit-set"
    install_into "$machine" "$development" PREFIX=/usr LIBDIR="/$libraries" PC_LIBDIR="\$\${prefix}/lib/$triplet" \
        PC_INCLUDEDIR="\$\${prefix}/include"
    split_library
    make_module "$module/usr/lib/python3/dist-packages"
    strip_all
    local glibc newest
    glibc="$(newest_glibc "$runtime/$libraries/libbit_set.so.$abi")"
    newest="$(newest_glibc "$module"/usr/lib/python3/dist-packages/bit_set/*.so)"

    describe "$runtime" libs same "libc6 (>= $glibc)" 'sets of whole numbers as bits, every call proved' \
        'The shared library. On x86-64 the loader takes the one that is made for the
processor, where glibc is 2.33 or later.'
    printf 'libbit_set %s %s (>= %s)\n' "$abi" "$library" "$version" > "$runtime/DEBIAN/shlibs"
    echo 'activate-noawait ldconfig' > "$runtime/DEBIAN/triggers"
    describe "$development" libdevel same "$library (= $version-1)" \
        'sets of whole numbers as bits, every call proved (headers)' \
        'The headers for C and C++, the static library, and what pkg-config reads.
With -I/usr/include/bit_set, programs over CRoaring find its calls.'
    describe "$module" python no "$library (>= $version), libc6 (>= $newest), python3 (>= 3.8)" \
        'sets of whole numbers as bits, every call proved (Python 3)' \
        'The Python module bit_set, whose BitSet and RoaringBitmap are MutableSets of
whole numbers.'
    local script
    for script in postinst:py3compile prerm:py3clean; do
        printf '%s\n' '#!/bin/sh' 'set -e' "! command -v ${script#*:} > /dev/null || ${script#*:} -p python3-bit-set" \
            > "$module/DEBIAN/${script%:*}"
        chmod 755 "$module/DEBIAN/${script%:*}"
    done
    for tree in "$runtime" "$development" "$module"; do
        build_package "$tree"
    done
}

# Moves the shared objects out of the package for development.
split_library() {
    local file to
    find "$development" -name "libbit_set.so.$abi" -printf '%P\n' > "$room/shared"
    while read -r file; do
        to="$runtime/$file"
        mkdir -p "${to%/*}"
        mv "$development/$file" "$to"
        chmod 644 "$to"
    done < "$room/shared"
    mkdir -p "$development/usr/share/doc/libbit-set-dev"
    cp -r "$source/examples" "$source/PROOF.txt" "$development/usr/share/doc/libbit-set-dev"
}

# Builds the module, which pip lists then. It has no list of its files there, so that pip leaves it to dpkg.
#   make_module FOLDER
make_module() {
    local information="$1/bit_set-$version.dist-info"
    python_module "$machine" "$1" "-L$runtime/$libraries" "-l:libbit_set.so.$abi"
    write_metadata "$information"
    echo debian > "$information/INSTALLER"
}

strip_all() {
    local strip
    strip="$(tool_of "$machine" strip)"
    find "$trees" -name '*.so*' -type f -exec "$strip" --strip-unneeded -R .comment {} +
    find "$trees" -name '*.a' -exec "$strip" -D --strip-debug {} +
}

# Writes the files that each package has.
#   describe FOLDER SECTION MULTI-ARCH DEPENDS SUMMARY TEXT
describe() {
    local tree="$1" name="${1##*/}" documents
    documents="$tree/usr/share/doc/$name"
    mkdir -p "$tree/DEBIAN" "$documents"
    {
        printf 'Package: %s\nSource: bit-set\nVersion: %s-1\nArchitecture: %s\n' "$name" "$version" "$architecture"
        printf 'Maintainer: %s\nInstalled-Size: %s\n' "$maintainer" "$(size_of "$tree")"
        printf 'Depends: %s\nSection: %s\nPriority: optional\nMulti-Arch: %s\nDescription: %s\n' "$4" "$2" "$3" "$5"
        printf ' %s\n' 'Members are bits in blocks, so that two sets are merged block by block. Each' \
            'call is proved to do what its contract says, and none ends the process.' .
        sed 's/^/ /' <<< "$6"
    } > "$tree/DEBIAN/control"
    {
        printf 'bit-set (%s-1) unstable; urgency=medium\n\n  * See changelog.gz.\n\n' "$version"
        printf ' -- %s  %s\n' "$maintainer" "$(date -R -d "@$SOURCE_DATE_EPOCH")"
    } | gzip -n -9 > "$documents/changelog.Debian.gz"
    gzip -n -9 < "$source/CHANGELOG.md" > "$documents/changelog.gz"
    {
        printf '%s\n' 'Format: https://www.debian.org/doc/packaging-manuals/copyright-format/1.0/' '' 'Files: *' \
            'Copyright: 2026 The bit_set authors' 'License: Expat or Apache-2.0' '' 'License: Expat'
        sed -n '/^Permission/,$s/^/ /p' "$source/LICENSE-MIT" | sed 's/^ $/ ./'
        printf '%s\n' '' 'License: Apache-2.0' ' It is in /usr/share/common-licenses/Apache-2.0 on Debian systems.'
    } > "$documents/copyright"
}

# In kilobytes: a block for each file, of which none here is large.
size_of() {
    find "$1" -type f -printf '%s\n' | awk '{ kilobytes += int(($1 + 1023) / 1024) } END { print kilobytes + 0 }'
}

build_package() {
    local tree="$1"
    (cd "$tree" && find usr -type f -print0 | sort -z | xargs -0 md5sum) > "$tree/DEBIAN/md5sums"
    settle "$tree"
    dpkg-deb --root-owner-group -Zxz -z6 -b "$tree" "$folder/${tree##*/}_$version-1_$architecture.deb" > /dev/null
}
