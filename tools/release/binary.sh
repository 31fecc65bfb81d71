# The archives for Linux, which work from wherever they are unpacked. To be sourced by release.
# shellcheck shell=bash disable=SC2154

#   make_binary MACHINE
make_binary() {
    local machine="$1" tree="$room/bit_set-$version-linux-$1"
    install_into "$machine" "$tree" PREFIX= PC_PREFIX="\$\${pcfiledir}/../.." PC_LIBDIR="\$\${prefix}/lib" \
        PC_INCLUDEDIR="\$\${prefix}/include"
    cp -r "$source"/{README.md,CHANGELOG.md,PROOF.txt,LICENSE-MIT,LICENSE-APACHE,examples} "$tree"
    pack "$tree" "$folder/bit_set-$version-linux-$machine.tar.gz"
}

# Installs the library into a folder, and beside it that for each newer processor, where the loader of glibc 2.33 and
# later looks for it.
#   install_into MACHINE FOLDER WORD..
install_into() {
    local machine="$1" tree="$2" base others processor at
    read -r base others <<< "$(processors_of "$machine")"
    make_for "$machine" "$base" install DESTDIR="$tree" "${@:3}"
    for processor in $others; do
        at="$(dirname "$(find "$tree" -name libbit_set.a -not -path '*/glibc-hwcaps/*')")/glibc-hwcaps/$processor"
        mkdir -p "$at"
        cp "$source/build/$processor"/libbit_set.{a,so."$abi"} "$at"
    done
}
