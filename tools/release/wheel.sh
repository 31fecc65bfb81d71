# The wheels for Python 3.8 and later. To be sourced by release.
# shellcheck shell=bash disable=SC2154

# Builds the package `bit_set` into a folder by the source release's script. Debian has a part of Python's headers for
# each kind of machine alone: what is here stands for it, since of the stable ABI it says the same.
#   python_module MACHINE FOLDER LINK..      LINK is what says to the linker where the library is
python_module() {
    local own headers="$room/headers-$1"
    own="$(python3 -c 'import sysconfig; print(sysconfig.get_config_var("MULTIARCH") or "")')"
    mkdir -p "$2" "$headers"
    ln -sfn "/usr/include/$own" "$headers/$1-linux-gnu"
    # CPATH would part a path that has a colon.
    CC="$(tool_of "$1" gcc)" "$source/bindings/python/build" "$source/include" "${@:2}" -I "$headers" < /dev/null
}

# Writes what pip and importlib.metadata say of the package.
#   write_metadata FOLDER      one whose name ends in .dist-info
write_metadata() {
    mkdir -p "$1"
    cat > "$1/METADATA" << END
Metadata-Version: 2.1
Name: bit_set
Version: $version
Summary: Sets of whole numbers as bits, over a library of which every call is proved
License: MIT OR Apache-2.0
Requires-Python: >=3.8
Classifier: Programming Language :: Python :: 3
Classifier: Operating System :: POSIX :: Linux
END
}

# It has the library for each processor of its kind in it, and needs nothing but glibc 2.17 or later. Its name says so twice:
# pip before 20.3, as Python 3.8 and 3.9 may bring it, knows only the second word for that.
#   make_wheel MACHINE
make_wheel() {
    local machine="$1" tree="$room/wheel-$1" base newest platforms=("manylinux_2_17_$1" "manylinux2014_$1")
    read -r base _ <<< "$(processors_of "$machine")"
    local information="$tree/bit_set-$version.dist-info"
    python_module "$machine" "$tree" "$source/build/$base/libbit_set.a"
    "$(tool_of "$machine" strip)" --strip-unneeded "$tree"/bit_set/*.so
    newest="$(newest_glibc "$tree"/bit_set/*.so)"
    [ "$(printf '%s\n' "$newest" 2.17 | sort -V | tail -n 1)" = 2.17 ] || stop "the wheel for $machine needs glibc $newest"
    mkdir -p "$information/licenses"
    cp "$source/PROOF.txt" "$information"
    cp "$source"/LICENSE-* "$information/licenses"
    write_metadata "$information"
    printf '%s\n' 'Wheel-Version: 1.0' 'Generator: bit_set' 'Root-Is-Purelib: false' "${platforms[@]/#/Tag: cp38-abi3-}" \
        > "$information/WHEEL"
    python3 "$top/tools/release/wheel.py" "$tree" "$folder/bit_set-$version-cp38-abi3-${platforms[0]}.${platforms[1]}.whl"
}
