# The source release, from which all the other parts are made. To be sourced by release.
# shellcheck shell=bash disable=SC2034,SC2154

# Proves the library for each processor, writes the archive, and leaves its files in $source, unpacked from it.
make_source() {
    local made="$room/made/bit_set-$version" machine processor
    echo 'release: proving, which takes about 15 minutes the first time on 4 cores' >&2
    run_group prove_below
    write_source "$made"
    for machine in x86_64 aarch64; do
        for processor in $(processors_of "$machine"); do
            assemble_all "$processor" "$room/crates" "$made" "$room/kept"
        done
    done
    write_proof "$room/crates" "$made/PROOF.txt"
    write_committed "$made" bindings/python bindings/rust
    pack "$made" "$folder/bit_set-$version.tar.gz"
    cp -p "$made/PROOF.txt" "$folder"
    tar xzf "$folder/bit_set-$version.tar.gz" -C "$room"
    source="$room/bit_set-$version"
    abi="$(sed -n 's/^#define BIT_SET_ABI \(.*\)$/\1/p' "$source/include/bit_set.h")"
}
