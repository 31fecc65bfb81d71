# What `bench/run` and `diff/run` share: it gets and builds the Rust crates that this library is compared with, and builds
# this library for Rust. To be sourced, with the script's name in `script`, the processor of both sides in `cpu`, and in
# `folder` a folder for the crates, outside the repository. What is built is in `built`, a folder there. It ends the script
# with status 1 if something fails, and with 2 if something is missing.
# shellcheck shell=bash disable=SC2154
# shellcheck source=../tools/ending.sh
. "$(dirname "${BASH_SOURCE[0]}")/../tools/ending.sh"
crates="$(cd "$(dirname "${BASH_SOURCE[0]}")/../crates" && pwd -P)"

say() {
    echo "$script: $1" >&2
}

missing() {
    say "$1 is missing: $2"
    exit 2
}

# Runs a command, and shows its output only if it fails.
log="$(mktemp)"
passing+=("$log")
quietly() {
    run_group "$@" < /dev/null > "$log" 2>&1 || {
        tail -n 40 "$log" >&2
        say "this failed: $*"
        exit 1
    }
}

in_folder() { cd "$1" && "${@:2}"; }

command -v rt > /dev/null || missing rt "the Rattle toolchain's command, on the PATH"
command -v rustc > /dev/null || missing rustc "the Rust compiler, of edition 2024 (1.85 or later), on the PATH"
[ "$cpu" != x86-64-v3 ] || grep -qw avx2 /proc/cpuinfo || missing AVX2 "this processor runs no code for $cpu"
mkdir -p "$folder/$cpu"
folder="$(cd "$folder" && pwd -P)"
built="$folder/$cpu"
# Only one run at a time gets and builds there, until `unlock`. Its children hold the lock too.
exec {locked}< "$folder"
if ! flock -n "$locked"; then
    say "another run builds in $folder: waiting for its end"
    run_group flock "$locked"
fi
unlock() { exec {locked}<&-; }
sources="$folder/root/usr/share/cargo/registry"

# The peers' sources are from Debian's packages of the crates, which have them as published.
get_packages() {
    (cd "$folder" && apt-get download librust-bit-set-dev librust-bit-vec-dev librust-fixedbitset-dev)
}

get_peers() {
    command -v apt-get > /dev/null || missing apt-get "the peers are Debian's packages librust-bit-set-dev, librust-bit-vec-dev and librust-fixedbitset-dev"
    command -v dpkg-deb > /dev/null || missing dpkg-deb "it unpacks Debian's packages"
    say "getting the peers"
    if ! get_packages > "$log" 2>&1; then
        apt-get update >> "$log" 2>&1 || true
        get_packages >> "$log" 2>&1 || {
            tail -n 10 "$log" >&2
            missing "a package of the peers" "apt-get could not get librust-bit-set-dev, librust-bit-vec-dev and librust-fixedbitset-dev (a list of packages that is out of date needs 'apt-get update', as root)"
        }
    fi
    rm -rf "$folder/unpacked"
    for package in "$folder"/*.deb; do
        quietly dpkg-deb -x "$package" "$folder/unpacked"
    done
    mv "$folder/unpacked" "$folder/root"
}

# Gets Debian's package PACKAGE, and unpacks it into the folder of that name in `folder`.
#   get_package PACKAGE
get_package() {
    [ ! -d "$folder/$1" ] || return 0
    command -v apt-get > /dev/null || missing apt-get "it gets Debian's package $1"
    command -v dpkg-deb > /dev/null || missing dpkg-deb "it unpacks Debian's package $1"
    say "getting $1"
    rm -rf "$folder/package" && mkdir "$folder/package"
    if ! in_folder "$folder/package" apt-get download "$1" > "$log" 2>&1; then
        apt-get update >> "$log" 2>&1 || true
        in_folder "$folder/package" apt-get download "$1" >> "$log" 2>&1 || {
            tail -n 10 "$log" >&2
            missing "a package" "apt-get could not get $1 (a list of packages that is out of date needs 'apt-get update', as root)"
        }
    fi
    quietly dpkg-deb -x "$folder"/package/*.deb "$folder/package/root"
    mkdir -p "$folder/packages"
    mv "$folder"/package/*.deb "$folder/packages/$1.deb"
    mv "$folder/package/root" "$folder/$1"
}

# Gets CRoaring as Debian builds it: the path of the shared library goes into `croaring`.
get_croaring() {
    get_package libroaring0
    croaring="$(echo "$folder"/libroaring0/usr/lib/*/libroaring.so.0)"
    [ -f "$croaring" ] || missing "$croaring" "it is part of Debian's package libroaring0; remove $folder/libroaring0 and try again"
}

# Both sides are built for the same processor.
rust() {
    quietly rustc -C opt-level=3 -C "target-cpu=$cpu" --cap-lints allow "$@"
}

peer() {
    local name="$1" source
    shift
    source="$(echo "$sources/${name//_/-}"-*/src/lib.rs)"
    [ -f "$source" ] || missing "$source" "it is part of Debian's package of that crate; remove $folder and try again"
    rust --edition 2018 --crate-type rlib --crate-name "$name" --cfg 'feature="std"' "$source" \
        -o "$built/lib$name.rlib" "$@"
}

build_peers() {
    [ -d "$sources" ] || get_peers
    say "building the peers"
    peer bit_vec
    peer bit_set --extern "bit_vec=$built/libbit_vec.rlib"
    peer fixedbitset
}

# Whether the file is complete, newer than every source in the folders, and made by this toolchain.
is_newer() {
    local file="$1"
    shift
    [ -e "$file" ] && [ "$(cat "$file.by" 2> /dev/null)" = "$(rt version)" ] && [ -z "$(find "$@" -name out -prune \
        -o \( -name '*.rs' -o -name '*.rt' -o -name '*.antt' \) -newer "$file.by" -print -quit)" ]
}

# Record that a file is begun, by which toolchain and when, and that it is complete.
note_begun() { rm -f "$1.by" && rt version > "$1.begun"; }
note_made() { mv "$1.begun" "$1.by"; }

# Builds the static library NAME, out/PROCESSOR/libNAME.a of its crate. For rt the crate is an ordinary library, which the
# gate proves in less time; so this calls the compiler itself, over the libraries below as rt proves them. The proofs are
# kept for the next processor.
build_static() {
    local name="$1" archive="out/$cpu/lib$1.a" kit library words
    ! is_newer "$crates/$name/$archive" "$crates" || return 0
    mkdir -p "$crates/$name/out/$cpu" "$crates/$name/out/kept"
    note_begun "$crates/$name/$archive"
    kit="$(dirname "$(rt doc | head -n 1)")"
    words=(--crate-name "$name" --crate-type staticlib --cpu "$cpu" --jobs "$(nproc)" --links "$name=")
    words+=(--incremental out/kept -L "dependency=$kit/rlibs")
    for library in std $(sed -n "s/^$name: //p" "$crates/../crates.txt"); do
        if [ -d "$crates/$library" ]; then
            quietly in_folder "$crates/$library" rt lib
            words+=(--extern "$library=$crates/$library/out/rlib/$library.rlib")
        else
            words+=(--extern "$library=$kit/rlibs/$library.rlib")
        fi
    done
    for library in "$crates"/*/out/rlib; do
        words+=(-L "dependency=$library")
    done
    words+=(--toolchain "$kit/toolchain" --antt-project "$kit/rattle/logic/antt-project.json")
    words+=(--logic-built "$kit/logic_built" --backend llvm -o "$archive")
    quietly in_folder "$crates/$name" "$kit/bin/rattle" build "${words[@]}" src/lib.rt
    note_made "$crates/$name/$archive"
}

# Builds the Rust program SOURCE over the static libraries NAMES.
#   build_over NAMES SOURCE PROGRAM [FLAG OF RUSTC..]
build_over() {
    local name libraries=()
    say "proving and building this library, which takes some minutes the first time"
    mkdir -p "$(dirname "$3")"
    note_begun "$3"
    for name in $1; do
        build_static "$name"
        libraries+=(-C "link-arg=$crates/$name/out/$cpu/lib$name.a")
    done
    rust --edition 2024 "$2" "${libraries[@]}" -o "$3" "${@:4}"
    note_made "$3"
}

# The same, also over the peers.
#   build_program NAMES SOURCE PROGRAM [FLAG OF RUSTC..]
build_program() {
    local memory
    memory="$(dirname "$(rt doc | head -n 1)")/c/liblibc_c.a"
    [ -f "$memory" ] || missing "$memory" "the toolchain's library of the calls that take memory"
    build_over "$@" -C "link-arg=$memory" -L "$built" --extern "bit_set=$built/libbit_set.rlib" \
        --extern "bit_vec=$built/libbit_vec.rlib" --extern "fixedbitset=$built/libfixedbitset.rlib"
}

# Gets Debian's sources of CRoaring, by separate package lists.
get_croaring_sources() {
    local lists="$folder/sources"
    mkdir -p "$lists/state/partial" "$lists/cache/archives/partial"
    echo 'deb-src http://deb.debian.org/debian bookworm main' > "$lists/sources.list"
    local apt=(apt-get -o "Dir::Etc::sourcelist=$lists/sources.list" -o Dir::Etc::sourceparts=-
        -o "Dir::State::lists=$lists/state" -o "Dir::Cache=$lists/cache")
    in_folder "$lists" "${apt[@]}" update > "$log" 2>&1 || return 1
    # Only the authors' archive is needed; Debian's additions may be missing.
    in_folder "$lists" "${apt[@]}" source --download-only croaring >> "$log" 2>&1 || true
    tar -C "$lists" -xf "$(echo "$lists"/croaring_*.orig.tar.*)" 2> /dev/null
}

# Builds CRoaring for the processor of the other sides, in `croaring_built`, which is empty if its sources are unavailable.
build_croaring() {
    croaring_built="$built/libroaring.so"
    [ ! -f "$croaring_built" ] || return 0
    say "building CRoaring"
    if ! get_croaring_sources; then
        say "the sources of CRoaring cannot be had: it is timed as Debian builds it alone"
        croaring_built=
        return 0
    fi
    local root
    root="$(echo "$folder"/sources/CRoaring-*)"
    quietly cc -O3 "-march=$cpu" -DNDEBUG -std=c11 -D_GNU_SOURCE -fPIC -shared "-I$root/include" "$root"/src/*.c "$root"/src/containers/*.c -o "$croaring_built.new"
    mv "$croaring_built.new" "$croaring_built"
}

# Builds LLVM's sparse bit vectors, by C names: only headers, from Debian's package.
build_sparse_bits() {
    local headers=/usr/lib/llvm-14/include compiler
    [ -d "$headers/llvm/ADT" ] || {
        get_package llvm-14-dev
        headers="$folder/llvm-14-dev$headers"
    }
    compiler="$(command -v clang++ || command -v g++)" || missing clang++ "or g++, which compiles LLVM's SparseBitVector"
    quietly "$compiler" -std=c++14 -O3 "-march=$cpu" -DNDEBUG -fno-exceptions -I"$headers" -c "$bench/sparse_bits.cc" \
        -o "$built/sparse_bits.o"
}

# Prints the versions of the toolchains and of the peers.
tell_versions() {
    echo "$(rt version), $(rustc --version), peers for $cpu: $(cd "$sources" && echo bit-set-* bit-vec-* fixedbitset-*)"
}

# Prints the commit.
tell_commit() {
    local commit
    if commit="$(git -C "$crates" describe --always --dirty 2> /dev/null)"; then
        echo "commit $commit"
    fi
}
