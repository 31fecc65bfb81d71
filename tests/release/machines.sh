# Tries the release on this system without the toolchain, with musl, and for aarch64. To be sourced by tests/release.sh.
# shellcheck shell=bash disable=SC2154

try_here() {
    try 'here there is no toolchain' bare sh -c '! command -v rt'
    try_frames
    try_beside
    if has clang && has clang++; then
        cp -r "$source" "$room/clang"
        try 'the source release by clang, with random calls' \
            bare make -s -C "$room/clang" CC=clang CXX=clang++ check check_cc ROUNDS="$rounds"
    else
        left_out 'clang, which is not here'
    fi
    if has cmake; then
        try_cmake
    else
        left_out 'CMake, which is not here'
    fi
    if [ -z "$cargo" ]; then
        left_out 'Cargo, which is not here'
        return
    fi
    local flags crate at="$room/crates of Cargo"
    mkdir -p "$at"
    for crate in "$release"/*.crate; do
        tar xzf "$crate" -C "$at"
    done
    cp -r "$source" "$room/packages"
    try 'the packages for Python and Rust from the source release' bare sh -ec "
        cd '$room/packages' && make -s && bindings/python/build include MODULE build/x86-64/libbit_set.a
        export PYTHONPATH=\$PWD/MODULE
        python3 bindings/python/tests.py && python3 bindings/python/roaring_tests.py
        python3 bindings/python/roaring64_tests.py
        cd bindings/rust && BIT_SET_LIBRARY_DIR=\$PWD/../../build/x86-64 cargo test --offline"
    for flags in '' -Ctarget-cpu=x86-64-v3; do
        try "the tests of Cargo's packages, with RUSTFLAGS=$flags" bare sh -ec "
            export RUSTFLAGS='$flags'
            cd '$at'/bit-set-[0-9]* && cargo test --offline && cd ../fixedbitset-* && cargo test --offline
            cd ../roaring-* && cargo test --offline"
    done
}

# A static library, a shared one that is installed and found, and one that is a part of another project.
try_cmake() {
    local at="$room/cmake" lines='cmake_minimum_required(VERSION 3.14)
        project(use C)
        add_executable(use main.c)'
    mkdir -p "$at/found" "$at/part"
    cp -r "$source" "$at/part/bit set"
    cp "$source/examples/example.c" "$at/found/main.c"
    cp "$source/examples/example.c" "$at/part/main.c"
    printf '%s\n' "$lines" "find_package(bit_set ${version%.*} REQUIRED)" 'target_link_libraries(use bit_set::bit_set)' \
        > "$at/found/CMakeLists.txt"
    printf '%s\n' "$lines" 'add_subdirectory("bit set")' 'target_link_libraries(use bit_set::bit_set)' \
        > "$at/part/CMakeLists.txt"
    try 'CMake: a static library' bare sh -ec "
        cmake -S '$source' -B '$at/static' && cmake --build '$at/static' && cd '$at/static' && ctest"
    try 'CMake: a shared library, installed and found' bare sh -ec "
        cmake -S '$source' -B '$at/shared' -DBUILD_SHARED_LIBS=ON -DBIT_SET_PROCESSOR=x86-64-v2
        cmake --build '$at/shared' && (cd '$at/shared' && ctest) && cmake --install '$at/shared' --prefix '$at/put here'
        readelf -nW '$at/shared/libbit_set.so' | grep 'x86 feature: IBT, SHSTK'
        cmake -S '$at/found' -B '$at/found/made' -DCMAKE_PREFIX_PATH='$at/put here' && cmake --build '$at/found/made'
        '$at/found/made/use' > '$at/wrote'
        cmp '$at/wrote' '$source/examples/example.out'"
    try 'CMake: a part of another project' bare sh -ec "
        cmake -S '$at/part' -B '$at/part/made' && cmake --build '$at/part/made'
        '$at/part/made/use' > '$at/wrote'
        cmp '$at/wrote' '$source/examples/example.out'"
}

# The same calls on two of the shared objects, one beside the other.
try_beside() {
    local at="$room/frames/lib"
    local newer="$at/glibc-hwcaps/x86-64"
    if ! grep -q '\bavx2\b' /proc/cpuinfo || ! grep -q '\bmovbe\b' /proc/cpuinfo; then
        left_out 'the object for v3 beside that for v2, on this processor'
        return
    fi
    try 'the comparison is built' bare cc -O2 -Wall -Wextra -Werror -I"$source/include" -I"$source/tests" \
        "$here/release/beside.c" -o "$room/beside" -ldl
    try 'the object for v3 beside that for v2' bare "$room/beside" "$newer-v3/"*.so.* "$newer-v2/"*.so.* "$rounds"
    try 'the object for v2 beside that for all' bare "$room/beside" "$newer-v2/"*.so.* "$at"/libbit_set.so.* "$rounds"
}

# That what is below a call of the library is found through its frames, and that the processor can demand marks.
try_frames() {
    local at="$room/frames"
    mkdir -p "$at"
    tar xzf "$release/bit_set-$version-linux-x86_64.tar.gz" -C "$at" --strip-components=1
    try 'frames are found through the library' bare sh -ec "
        cd '$at' && cc -Wl,--wrap=malloc -rdynamic -Iinclude '$here/release/frames.c' lib/libbit_set.a -o frames && ./frames"
    try 'the shared objects ask for IBT and SHSTK' ask_for_marks 1 "$at"/lib/libbit_set.so.* "$at"/lib/glibc-hwcaps/*/*.so.*
    try 'the archives do' ask_for_marks 4 "$at"/lib/libbit_set.a "$at"/lib/glibc-hwcaps/*/*.a
}

# Whether each of these files asks, or each of the objects that it has.
#   ask_for_marks COUNT FILE..
ask_for_marks() {
    local file
    for file in "${@:2}"; do
        [ "$(readelf -nW "$file" | grep -c 'x86 feature: IBT, SHSTK')" -eq "$1" ] || return
    done
}

try_musl() {
    if ! has musl-gcc; then
        left_out 'musl, without musl-gcc'
        return
    fi
    local at="$room/musl"
    cp -r "$source" "$at"
    try 'musl: the source release, with random calls' bare make -s -C "$at" CC=musl-gcc check ROUNDS="$rounds"
    try 'musl: a static program' bare sh -ec "
        cd '$at' && musl-gcc -static -Iinclude examples/example.c build/x86-64/libbit_set.a -o alone
        ./alone > wrote
        cmp wrote examples/example.out"
}

try_arm() {
    if ! has aarch64-linux-gnu-gcc || ! has qemu-aarch64-static; then
        left_out 'aarch64, without aarch64-linux-gnu-gcc and qemu-aarch64-static'
        return
    fi
    local at="$room/arm" checks=check archive="$room/bit_set-$version-linux-aarch64"
    ! has aarch64-linux-gnu-g++ || checks='check check_cc'
    cp -r "$source" "$at"
    # shellcheck disable=SC2086
    try 'aarch64: the source release, with random calls' bare make -s -C "$at" CC=aarch64-linux-gnu-gcc AR=aarch64-linux-gnu-ar \
        CXX=aarch64-linux-gnu-g++ RUN='qemu-aarch64-static -L /usr/aarch64-linux-gnu' $checks ROUNDS="$rounds"
    tar xzf "$release/bit_set-$version-linux-aarch64.tar.gz" -C "$room"
    try 'aarch64: the archive for Linux' over_library "$archive/include" "$archive/lib"
    try 'aarch64: frames are found through the library' bare sh -ec "
        aarch64-linux-gnu-gcc -Wl,--wrap=malloc -rdynamic -I'$archive/include' '$here/release/frames.c' \
            '$archive/lib/libbit_set.a' -o '$room/arm-frames'
        qemu-aarch64-static -L /usr/aarch64-linux-gnu '$room/arm-frames'"
    dpkg-deb -x "$release/libbit-set0_$version-1_arm64.deb" "$room/arm-packages"
    dpkg-deb -x "$release/libbit-set-dev_$version-1_arm64.deb" "$room/arm-packages"
    try 'aarch64: the packages' over_library "$room/arm-packages/usr/include" "$room/arm-packages/usr/lib/aarch64-linux-gnu"
    try_arm_module
}

# The example over the shared object.
#   over_library HEADERS LIBRARY
over_library() {
    bare aarch64-linux-gnu-gcc -I"$1" "$source/examples/example.c" -L"$2" -lbit_set -Wl,-rpath,"$2" -o "$room/example" \
        && on_arm "$room/example" > "$room/wrote" && cmp "$room/wrote" "$source/examples/example.out"
}

# Python's own files for aarch64 are unpacked alone, since nothing here runs the scripts that would set them up.
try_arm_module() {
    if ! make_root arm64 bookworm python3 --foreign --arch=arm64; then
        left_out 'aarch64: Python, which debootstrap does not get here'
        return
    fi
    local package sysroot="$roots/arm64"
    if ! [ -e "$sysroot/usr/bin/python3" ]; then
        for package in "$sysroot"/var/cache/apt/archives/*.deb; do
            dpkg-deb -x "$package" "$sysroot"
        done
    fi
    mkdir -p "$room/arm-wheel"
    python3 -m zipfile -e "$release/bit_set-$version"-cp38-abi3-*_aarch64.whl "$room/arm-wheel"
    local tests
    for tests in tests roaring_tests roaring64_tests; do
        try "aarch64: Python's $tests over the wheel" on_arm -E PYTHONHOME="$sysroot/usr" -E PYTHONPATH="$room/arm-wheel" \
            "$sysroot/usr/bin/python3" "$source/bindings/python/$tests.py"
    done
    dpkg-deb -x "$release/python3-bit-set_$version-1_arm64.deb" "$room/arm-packages"
    for tests in tests roaring_tests roaring64_tests; do
        try "aarch64: Python's $tests over the packages" on_arm -E PYTHONHOME="$sysroot/usr" \
            -E PYTHONPATH="$room/arm-packages/usr/lib/python3/dist-packages" \
            -E LD_LIBRARY_PATH="$room/arm-packages/usr/lib/aarch64-linux-gnu" \
            "$sysroot/usr/bin/python3" "$source/bindings/python/$tests.py"
    done
}
