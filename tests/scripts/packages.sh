# What packages and headers tell those who build over them, with a source release whose library has only a mark. To be
# sourced by tests/scripts.sh.
# shellcheck shell=bash disable=SC2154
packed="$room/packed_source"
(. "$top/tools/c_library.sh" && write_source "$packed") > "$room/said" 2>&1
mkdir "$packed/src/none"
for name in bit_set bit_set32 bit_roaring; do
    printf '%s\n' ".globl ${name}_mark" "${name}_mark: ret" '.section .note.GNU-stack,"",@progbits' > "$packed/src/none/$name.s"
done

# CMake and make tell pkg-config the same, also of a path that is named only as the library is installed.
if command -v cmake > /dev/null; then
    installed="$room/o'neil \"q\""
    {
        cmake -S "$packed" -B "$room/by_cmake" -DBIT_SET_PROCESSOR=none -DBUILD_TESTING=OFF -DCMAKE_INSTALL_LIBDIR=lib \
            && cmake --build "$room/by_cmake" && cmake --install "$room/by_cmake" --prefix "$installed"
    } > "$room/wrote" 2>&1 < /dev/null
    expect "CMake does not build the library: $(tail -n 5 "$room/wrote")" [ -f "$installed/lib/libbit_set.a" ]
    make -s -C "$packed" PREFIX="$installed" PROCESSOR=none build/none/bit_set.pc > "$room/wrote" 2>&1 < /dev/null
    expect 'CMake tells pkg-config something else than make' cmp "$packed/build/none/bit_set.pc" "$installed/lib/pkgconfig/bit_set.pc"
    mkdir "$room/finds"
    for found in 'bit_set 0.12' 'bit_set OPTIONAL_COMPONENTS none' 'bit_set COMPONENTS none'; do
        printf '%s\n' 'cmake_minimum_required(VERSION 3.14)' 'project(finds NONE)' "find_package($found REQUIRED)" \
            'get_target_property(file bit_set::bit_set LOCATION)' > "$room/finds/CMakeLists.txt"
        ended=0
        cmake -S "$room/finds" -B "$room/finds/$found" -DCMAKE_PREFIX_PATH="$installed" > "$room/wrote" 2> "$room/said" < /dev/null \
            || ended=$?
        if [[ "$found" = *' COMPONENTS'* ]]; then
            expect 'find_package takes a component that is not there' says 'and so none that is called none'
        else
            expect "find_package($found) ends with $ended: $(cat "$room/said")" ends_with 0
        fi
    done
fi

# What Debian's package has beside the module, as pip and Python read it.
module="$room/dist-packages"
(
    # shellcheck disable=SC2034  # what the part reads
    version=1.2.3 machine=none runtime='' libraries='' abi=''
    . "$top/tools/release/wheel.sh" && . "$top/tools/release/debian.sh"
    python_module() { mkdir -p "$2"; }
    make_module "$module"
) > "$room/said" 2>&1
PYTHONPATH="$module" python3 -c '
from importlib import metadata
found = metadata.distribution("bit-set")
print(found.version, found.metadata["Requires-Python"], found.read_text("INSTALLER").strip(), found.files)' > "$room/wrote" 2>> "$room/said"
expect "Python finds no package of Debian's: $(cat "$room/said")" wrote '1.2.3 >=3.8 debian None'

# Python's headers for another machine, which include those of its own kind, are found wherever temporary files are. What
# stands for Python says where these are, from /usr/include on.
colon="$room/a : b"
mkdir -p "$colon"/{machine,bindings/python/src,include} "$room/their_python"
cp "$top/bindings/python/build" "$colon/bindings/python"
touch "$colon/bindings/python/src"/{__init__.py,__init__.pyi,py.typed} "$colon/include/bit_set.h" "$colon/machine/its.h"
echo '#include <none-linux-gnu/its.h>' > "$colon/include/Python.h"
echo '#include <Python.h>' > "$colon/bindings/python/src/module.c"
printf '%s\n' '#!/bin/sh' "case \"\$2\" in *MULTIARCH*) echo '../..$colon/machine' ;; *) echo '$colon/include' ;; esac" > "$room/their_python/python3"
chmod +x "$room/their_python/python3"
ended=0
(
    # shellcheck disable=SC2034  # what the part reads
    PATH="$room/their_python:$PATH" room="$colon" source="$colon"
    . "$top/tools/release/packing.sh" && . "$top/tools/release/wheel.sh"
    unset CPATH PYTHON
    python_module none "$colon/module" -nostdlib
) > "$room/wrote" 2> "$room/said" < /dev/null || ended=$?
expect "a module is not built where TMPDIR has a colon: $(cat "$room/said")" ends_with 0

# Rights and files that git is told to leave out of archives are in a release all the same.
library="$room/committed"
mkdir -p "$library/bindings/python" "$room/archived"
printf '%s\n' '#!/bin/sh' | tee "$library/bindings/python/build" > "$library/bindings/python/faults.py"
chmod +x "$library/bindings/python/build"
echo '*.py export-ignore' > "$room/attributes"
in_library init -q && in_library add . && in_library commit -qm stand_in
in_library config tar.umask 0177 && in_library config core.attributesFile "$room/attributes"
(. "$top/tools/release/folder.sh" && here="$library" commit=HEAD write_committed "$room/archived" bindings/python) > "$room/said" 2>&1
expect "git's tar.umask has a release lose rights: $(cat "$room/said")" [ -x "$room/archived/bindings/python/build" ]
expect 'a file is left out of a release by attributes of its user' [ -f "$room/archived/bindings/python/faults.py" ]

# Programs that ask for more warnings have none of a header, whatever they include it in.
cat > "$room/body" << 'BODY'
    bit_set_lent lent = BIT_SET_NOTHING_LENT;
    bit_set32_lent lent32 = BIT_SET32_NOTHING_LENT;
    bit_set_lend_blocks(set, &lent);
    BIT_SET_FOR_EACH_RUN(start, end, set) lent32.count += end - start;
    return lent32.count < lent.count;
}
BODY
{
    printf '%s\n' 'extern "C" {' '#include <bit_set32.h>' '}' '#include <bit_set.hpp>' 'int main() {' '    BitSet own{1, 2};' \
        '    bit_set *set = own.get();'
    cat "$room/body"
} > "$room/program.cc"
{
    printf '%s\n' '#include <bit_set.h>' '#include <bit_set32.h>' 'int main(void) {' '    bit_set *set = NULL;' \
        '    if (!bit_set_new(&set))' '        return 3;'
    cat "$room/body"
} > "$room/program.c"
warnings=(-Werror -Wall -Wextra -Wpedantic -Wshadow -Wconversion -Wsign-conversion -Wcast-qual -Wundef -Wredundant-decls)
for checked in '' -DBIT_SET_CHECKED; do
    expect "a C compiler warns of the headers: $checked" \
        cc -std=c99 "${warnings[@]}" -Wstrict-prototypes -Wc++-compat $checked -I"$packed/include" -fsyntax-only "$room/program.c"
    ! command -v g++ > /dev/null || expect "a C++ compiler warns of the headers: $checked" \
        g++ -std=c++17 -fno-rtti "${warnings[@]}" -Wold-style-cast -Wuseless-cast -Wzero-as-null-pointer-constant -Weffc++ \
        -fno-exceptions $checked -I"$packed/include" -fsyntax-only "$room/program.cc"
done

# Without a word the code is for the machine that the compiler makes it for, of whatever kind this one is.
for machine in x86_64-pc-linux-gnu:x86-64 aarch64-linux-gnu:aarch64 arm64-linux:aarch64 riscv64-linux-gnu:riscv64; do
    printf '%s\n' '#!/bin/sh' "echo ${machine%:*}" > "$room/compiler"
    chmod +x "$room/compiler"
    make -n -C "$packed" CC="$room/compiler" > "$room/wrote" 2>&1
    expect "make builds for another machine than ${machine%:*}" grep -qF "build/${machine#*:}/bit_set.o" "$room/wrote"
done
if command -v cmake > /dev/null && command -v clang > /dev/null; then
    {
        cmake -S "$packed" -B "$room/by_clang" -DBIT_SET_PROCESSOR=none -DBUILD_TESTING=OFF -DBUILD_SHARED_LIBS=ON \
            -DCMAKE_C_COMPILER=clang -DCMAKE_BUILD_TYPE=Release && cmake --build "$room/by_clang"
    } > "$room/wrote" 2> "$room/said" < /dev/null
    expect "clang warns of what CMake gives it: $(head -n 3 "$room/said")" [ -f "$room/by_clang/libbit_set.so" -a ! -s "$room/said" ]
    # A part of a project that asks of the compiler what it has not.
    mkdir "$room/part"
    printf '%s\n' 'cmake_minimum_required(VERSION 3.14)' 'project(part C)' 'set(CMAKE_REQUIRED_FLAGS --none)' \
        "add_subdirectory(\"$packed\" bit_set)" > "$room/part/CMakeLists.txt"
    for machine in aarch64:src/aarch64/bit_set.s 'riscv64:for x86-64 and for aarch64, and this compiler'; do
        cmake -S "$room/part" -B "$room/for_${machine%%:*}" -DCMAKE_C_COMPILER=clang \
            -DCMAKE_C_COMPILER_TARGET="${machine%%:*}-linux-gnu" -DCMAKE_TRY_COMPILE_TARGET_TYPE=STATIC_LIBRARY \
            > "$room/wrote" 2> "$room/said" < /dev/null
        expect "CMake builds for another machine than ${machine%%:*}: $(cat "$room/said")" says "${machine#*:}"
    done
fi
