# The Cargo packages, which are built with no toolchain and no network. To be sourced by release.
# shellcheck shell=bash disable=SC2154

# Writes bit-set-sys with the library in it, and the packages over it, each as Cargo's registries have packages. A
# package with another's API has that one's version, and this library's behind it. Unpacked beside one another they find
# each other.
make_crates() {
    local machine processor tree
    local sys="bit-set-sys-$version" trees="$room/crates-made"
    crate bit-set-sys "$version"
    tree="$trees/$sys"
    for machine in x86_64 aarch64; do
        for processor in $(processors_of "$machine"); do
            mkdir -p "$tree/lib/$processor"
            cp "$source/build/$processor/libbit_set.a" "$tree/lib/$processor"
            "$(tool_of "$machine" strip)" -D --strip-debug "$tree/lib/$processor/libbit_set.a"
        done
    done
    crate bit-set "$(version_of bit-set)+$version"
    crate fixedbitset "$(version_of fixedbitset)+$version"
    crate roaring "$(version_of roaring)+$version"
    for tree in "$trees"/*; do
        pack "$tree" "$folder/${tree##*/}.crate"
    done
}

version_of() { sed -n 's/^version = "\(.*\)"$/\1/p' "$source/bindings/rust/$1/Cargo.toml"; }

# Copies a package, under a version.
#   crate NAME VERSION
crate() {
    local tree="$trees/$1-$2" set_version
    set_version="$(version_of bit-set)"
    mkdir -p "$tree"
    cp -r "$source/bindings/rust/$1/." "$tree"
    cp "$source"/{LICENSE-*,PROOF.txt} "$tree"
    sed -i "s/^version = .*/version = \"$2\"/
        s,path = \"\.\./bit-set-sys\",version = \"=$version\"\, path = \"../$sys\",
        s,path = \"\.\./bit-set\",version = \"=$set_version\"\, path = \"../bit-set-$set_version+$version\"," "$tree/Cargo.toml"
}
