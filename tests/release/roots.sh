# Roots of Debian, in which the release is installed and used. To be sourced by tests/release.sh.
# shellcheck shell=bash disable=SC2016,SC2154

# Makes the root of this name where there is none.
#   make_root NAME SUITE PACKAGES WORD..
make_root() {
    local name="$1" suite="$2" packages="$3"
    [ ! -e "$roots/$name/usr" ] || return 0
    has debootstrap || return 1
    debootstrap --variant=minbase --include="$packages" "${@:4}" "$suite" "$roots/$name" http://deb.debian.org/debian \
        > "$roots/$name.log" 2>&1 || {
        rm -rf "${roots:?}/$name"
        return 1
    }
}

# Rust's own library for aarch64, of which only the files are taken.
add_arm_rust() {
    [ ! -d "$1/usr/lib/rustlib/aarch64-unknown-linux-gnu" ] || return 0
    chroot "$1" env -i PATH=/usr/sbin:/usr/bin:/sbin:/bin LC_ALL=C sh -euc '
        dpkg --add-architecture arm64 && apt-get update && cd /tmp && apt-get download libstd-rust-dev:arm64
        dpkg-deb -x libstd-rust-dev*.deb / && rm libstd-rust-dev*.deb' >> "$1.log" 2>&1
}

#   try_root VERSION SUITE PACKAGES
try_root() {
    local on="Debian $1"
    if ! make_root "$1" "$2" "gcc,g++,libc6-dev,make,pkg-config,python3,python3-pip,python3-venv${3:+,$3}"; then
        left_out "$on, which debootstrap does not make here"
        return
    fi
    root="$room/root"
    cp -a "$roots/$1" "$root"
    cp -r "$given" "$root/try"
    try "$on: there is no toolchain" inside '! command -v rt'
    try_packages "$1"
    try_upgrade
    try_module
    try_archive "$1"
    try_source
    try_readme
    try_cargo "$1"
}

try_packages() {
    try "$on: the packages are installed" inside "$(packages_of_readme); dpkg -i python3-bit-set_*_amd64.deb"
    try "$on: an example in C over the package" inside '
        [ "$(pkg-config --variable=includedir bit_set)" = /usr/include ]
        cp bit_set-$VERSION/examples/* .
        gcc -std=c99 -Wall -Wextra -Werror example.c $(pkg-config --cflags --libs bit_set) -o shared
        ./shared > wrote
        cmp wrote example.out
        gcc example.c -l:libbit_set.a -o static
        ./static > wrote
        cmp wrote example.out'
    try "$on: an example in C++ over the package" inside '
        g++ -std=c++17 example.cc $(pkg-config --cflags --libs bit_set) -o shared_cc
        ./shared_cc > wrote
        cmp wrote example.out'
    # The loader says what it takes, which is the newest that the processor has.
    if [ "$1" != 11 ] && grep -q '\bavx2\b' /proc/cpuinfo && grep -q '\bmovbe\b' /proc/cpuinfo; then
        try "$on: the loader takes the object for v3" inside 'ldd ./shared | grep -F x86-64-v3/libbit_set.so'
    fi
    local calls
    for calls in c_calls c_matrix c_roaring c_roaring64; do
        try "$on: random calls of $calls over the shared object" inside "
            gcc -O2 bit_set-\$VERSION/tests/$calls.c \$(pkg-config --cflags --libs bit_set) -o $calls
            ./$calls \$ROUNDS"
    done
    try "$on: the tests of Python over the package" inside 'python3 bit_set-$VERSION/bindings/python/tests.py
        python3 bit_set-$VERSION/bindings/python/roaring_tests.py
        python3 bit_set-$VERSION/bindings/python/roaring64_tests.py
        [ "$(python3 -c "from importlib import metadata; print(metadata.version(\"bit-set\"))")" = "$VERSION" ]
        python3 -m pip list | grep "^bit[-_]set "'
    try "$on: the packages are removed" inside '
        dpkg --purge python3-bit-set libbit-set-dev libbit-set0 && ! ls /usr/lib/*/libbit_set*'
}

# The same packages under an older version are installed first. Of all of them nothing stays.
try_upgrade() {
    try "$on: packages of an older version are upgraded and removed" inside '
        find /usr | sort > before
        mkdir older
        for file in libbit-set*_amd64.deb python3-bit-set_*_amd64.deb; do
            rm -rf tree && dpkg-deb -R "$file" tree && sed -i "s/$VERSION/0.11.9/" tree/DEBIAN/control
            dpkg-deb -b tree "older/$file"
        done
        dpkg -i older/*.deb
        installed() { dpkg-query -Wf "\${Version} " libbit-set0 libbit-set-dev python3-bit-set; }
        [ "$(installed)" = "0.11.9-1 0.11.9-1 0.11.9-1 " ]
        dpkg -i libbit-set*_amd64.deb python3-bit-set_*_amd64.deb
        [ "$(installed)" = "$VERSION-1 $VERSION-1 $VERSION-1 " ]
        python3 -c "import bit_set; assert len(bit_set.BitSet([3, 5])) == 2"
        dpkg --purge python3-bit-set libbit-set-dev libbit-set0
        find /usr | sort | diff before -'
}

try_module() {
    try "$on: pip installs the wheel" inside '
        python3 -m venv "/en v" && "/en v/bin/python" -m pip install --no-index bit_set-$VERSION-cp38-abi3-*_x86_64.whl
        "/en v/bin/python" -m pip check'
    try "$on: the tests of Python over the wheel" inside '
        "/en v/bin/python" bit_set-$VERSION/bindings/python/tests.py
        "/en v/bin/python" bit_set-$VERSION/bindings/python/roaring_tests.py
        "/en v/bin/python" bit_set-$VERSION/bindings/python/roaring64_tests.py'
    try "$on: pip removes it" inside '
        "/en v/bin/python" -m pip uninstall -y bit_set && ! find "/en v" -iname "*bit_set*" | grep .'
}

# By a user who may not write there, and in a path that has a space, which the pkg-config of Debian 11 does not take.
try_archive() {
    local place='/opt/some where'
    [ "$1" != 11 ] || place=/opt/somewhere
    try "$on: the archive for Linux" inside "mkdir -p '$place' && cd '$place'"'
        tar xzf /try/bit_set-$VERSION-linux-x86_64.tar.gz && cd bit_set-$VERSION-linux-x86_64
        export PKG_CONFIG_PATH="$PWD/lib/pkgconfig" LD_LIBRARY_PATH="$PWD/lib"
        [ "$(pkg-config --modversion bit_set)" = "$VERSION" ]
        cat > /tmp/use << END
        eval "gcc examples/example.c \$(pkg-config --cflags --libs bit_set) -o /tmp/example"
        gcc -Iinclude examples/example.c lib/libbit_set.a -o /tmp/alone
        ! echo > lib/written
END
        chroot --userspec=65534:65534 --skip-chdir / sh -eu /tmp/use
        for program in example alone; do
            /tmp/$program > /tmp/wrote
            cmp /tmp/wrote examples/example.out
        done
        ldd /tmp/example | grep -F "$PWD/lib"'
}

try_source() {
    local processor
    for processor in x86-64 x86-64-v2 x86-64-v3; do
        try "$on: the source release for $processor, with random calls" inside "
            cd bit_set-\$VERSION && make -s PROCESSOR=$processor check check_cc ROUNDS=\$ROUNDS"
    done
    try "$on: the source release is built elsewhere by who may not write into it" inside '
        cd bit_set-$VERSION
        chroot --userspec=65534:65534 --skip-chdir / make -s BUILD=/tmp/made check check_cc'
    try "$on: the source release is installed and removed" inside '
        cd bit_set-$VERSION
        make -s install DESTDIR="/try/put here" && ls "/try/put here/usr/local/lib/libbit_set.so"
        make -s uninstall DESTDIR="/try/put here" && ! find "/try/put here" ! -type d | grep .'
}

# Each line of README's, as it stands there.
try_readme() {
    write_readme "$root/readme"
    try "$on: README for C" inside "
        cd /readme && sh -eu c.sh
        cc example.c -lbit_set -o example
        [ \"\$(./example | tr '\n' ' ')\" = '10 11 12 13 14 15 16 17 18 19 400 ' ]
        cc roaring.c -lbit_set -o roaring
        [ \"\$(./roaring | tr '\n' ' ')\" = '70000 70001 70002 4000000000 ' ]"
    try "$on: README for Python" inside "
        cd /readme && python3 -m venv in
        export PATH=/readme/in/bin:\$PATH PIP_NO_INDEX=1
        sh -eu python.sh
        [ \"\$(python example.py)\" = '41 0 20' ]
        [ \"\$(python roaring.py)\" = 'True 3 4000000000' ]"
}

# Debian 13 is the first with a Cargo that takes the packages.
try_cargo() {
    if ! [ -x "$root/usr/bin/cargo" ]; then
        left_out "$on: Cargo's packages, for which its Cargo is too old"
        return
    fi
    try "$on: README for Rust" inside "
        export CARGO_NET_OFFLINE=true
        cd /readme && sh -eu rust.sh
        cd PROGRAM && [ \"\$(cargo run -q)\" = '{10, 12, 14, 16, 18, 400}, 6 members' ]
        [ \"\$(cargo run -q --example roaring)\" = 'RoaringBitmap<[3, 70000, 70001, 70002, 4000000000]>' ]"
    try "$on: the tests of Cargo's packages" inside '
        mkdir -p crates && for crate in *.crate; do tar xzf "$crate" -C crates; done
        cd crates/bit-set-[0-9]* && cargo test --offline && cd ../fixedbitset-* && cargo test --offline
        cd ../roaring-* && cargo test --offline'
    if ! [ -x "$root/usr/bin/aarch64-linux-gnu-gcc" ] || ! has qemu-aarch64-static || ! add_arm_rust "$roots/$1"; then
        left_out "$on: Cargo's packages for aarch64"
        return
    fi
    cp -rn "$roots/$1/usr/lib/rustlib" "$root/usr/lib"
    cp "$(command -v qemu-aarch64-static)" "$root/usr/bin"
    try "$on: the tests of Cargo's packages for aarch64" inside '
        export CARGO_TARGET_AARCH64_UNKNOWN_LINUX_GNU_LINKER=aarch64-linux-gnu-gcc
        export CARGO_TARGET_AARCH64_UNKNOWN_LINUX_GNU_RUNNER="qemu-aarch64-static -L /usr/aarch64-linux-gnu"
        cd crates/bit-set-[0-9]* && cargo test --offline --target aarch64-unknown-linux-gnu --tests
        cd ../fixedbitset-* && cargo test --offline --target aarch64-unknown-linux-gnu --tests
        cd ../roaring-* && cargo test --offline --target aarch64-unknown-linux-gnu --tests --release'
}
