# What bindings/c/build and release share: the crates of exports, proved and compiled to assembly, and the source release
# that is made of them. To be sourced after tools/ending.sh and tools/copy.sh.
# shellcheck shell=bash disable=SC2034,SC2154

# A program would take what is closed here for the first file that it opens, as bash does for the script.
for stream in 0 1 2; do
    if [ ! -e "/dev/fd/$stream" ] || [ "/dev/fd/$stream" -ef "$0" ]; then
        eval "exec $stream<> /dev/null"
    fi
done

# Has what follows work on the sources in a folder, which has them as the repository does.
use_sources() {
    top="$1"
    crates="$top/crates"
    c="$top/bindings/c"
    version="$(sed -n 's/^#define BIT_SET_VERSION "\(.*\)"$/\1/p' "$c/bit_set.h")"
}
use_sources "$(dirname "$(dirname "$(readlink -f "${BASH_SOURCE[0]}")")")"
kit="$(dirname "$(rt doc | head -n 1)")"

# The crates of exports, and the files of assembly that are made of them: bit_set32 of bit_set_c.
exporting=(bit_set_c bit_roaring_c)
assemblies=(bit_set bit_set32 bit_roaring)

# The libraries that a crate of exports stands on, or all of these.
#   libraries_below [CRATE]
libraries_below() {
    local name
    # shellcheck disable=SC2013  # each word is a name
    for name in $(sed -n "s/^${1:-[a-z_]*} staticlib: *//p" "$top/crates.txt" | tr ' ' '\n' | awk '!seen[$0]++'); do
        [ ! -d "$crates/$name" ] || echo "$name"
    done
}

prove_below() {
    local name
    for name in $(libraries_below); do
        (cd "$crates/$name" && rt lib) < /dev/null >&2
    done
}

# Copies the crate for a file of assembly. Over blocks of 32 bits three files say so.
#   copy_crate ASSEMBLY FOLDER
copy_crate() {
    mkdir -p "$2/out"
    (cd "$crates/${1%32}_c" && cp -r src specs proofs "$2")
    if [ "$1" = bit_set32 ]; then
        (cd "$2" && sed -i 's/u64/u32/g; s/U64/U32/g; s/64/32/g' src/block.rt specs/Block.antt proofs/Sets.antt)
    fi
}

# Makes a folder that stands for the toolchain's, for a target. In the place of clang it has a script that also writes
# what it is given as assembly, in the same way, into the file `assembly`. There frames are described for debuggers, and on
# x86-64 each place where a call may arrive is marked, which the processor can then demand: the notes that ask for it are
# in the module `notes.bc`, since clang takes them from no option where it is given a module.
make_toolchain() {
    local folder="$1" target="$2" file notes=''
    mkdir -p "$folder/bin"
    ln -s "$kit/toolchain/lib" "$folder/lib"
    for file in "$kit"/toolchain/bin/*; do
        [ "${file##*/}" = clang ] || ln -s "$file" "$folder/bin"
    done
    if [[ "$target" = x86_64-* ]]; then
        echo 'typedef int nothing;' > "$folder/notes.c"
        "$kit/toolchain/bin/clang" --target="$target" -fcf-protection=full -emit-llvm -c "$folder/notes.c" \
            -o "$folder/notes.bc"
        notes="-Xclang -mlink-bitcode-file -Xclang ${folder@Q}/notes.bc"
    fi
    cat > "$folder/bin/clang" << END
#!/usr/bin/env -S bash -p
words=()
for word in "\$@"; do
    case "\$word" in
        -c) word=-S ;;
        *.o) word=${folder@Q}/assembly ;;
    esac
    words+=("\$word")
done
${kit@Q}/toolchain/bin/clang "\${words[@]}" -fno-addrsig -fforce-dwarf-frame $notes || exit
exec ${kit@Q}/toolchain/bin/clang "\$@"
END
    chmod +x "$folder/bin/clang"
}

# Proves the crate in a folder for a processor, over the libraries as they are proved, and writes its assembly. What is
# said goes to FILE.said, with the verdict as the last line.
#   assemble CRATE FOLDER PROCESSOR FILE [KEPT]    KEPT is a folder that keeps what is proved for the next processor or run
assemble() {
    local crate="$1" folder="$2" processor="$3" file="$4" name made words
    local target=x86_64-unknown-linux-gnu cpu="$processor"
    if [ "$processor" = aarch64 ]; then
        target=aarch64-unknown-linux-gnu
        cpu=generic
    fi
    words=(--crate-name "$crate" --crate-type staticlib --links "$crate=" --target "$target" --cpu "$cpu")
    if [ $# -ge 5 ]; then
        mkdir -p "$5"
        words+=(--incremental "$5")
    fi
    for name in $(libraries_below "$crate"); do
        words+=(--extern "$name=$crates/$name/out/rlib/$name.rlib" -L "dependency=$crates/$name/out/rlib")
    done
    words+=(--extern "std=$kit/rlibs/std.rlib" -L "dependency=$kit/rlibs")
    words+=(--antt-project "$kit/rattle/logic/antt-project.json" --logic-built "$kit/logic_built")
    made="$folder/out/$processor"
    make_toolchain "$made" "$target"
    words+=(--toolchain "$made" -o "$made/lib$crate.a" src/lib.rt)
    if ! (cd "$folder" && "$kit/bin/rattle" build "${words[@]}") > "$file.said" 2>&1; then
        cat "$file.said" >&2
        echo "${0##*/}: $crate is not proved or not built for $processor" >&2
        return 1
    fi
    tail -n 1 "$file.said" >&2
    cp "$made/assembly" "$file"
}

# Writes assembly for the source release: the calls that take memory under the names that mem.c has for them, what
# describes frames where a program finds it as it runs, inner names of letters that older assemblers take too, and over
# blocks of 32 bits each exported name with 32 in it.
#   name_calls ASSEMBLY < FILE
name_calls() {
    # In Turkish, i is none of a-z.
    local -x LC_ALL=C
    local text memory='s/\brattle_\(alloc\|realloc\|dealloc\)\b/bit_set_c_\1/g'
    text="$(sed "$memory; /^\t\.cfi_sections \.debug_frame\$/d" | plain_names)"
    if [ "$1" != bit_set32 ]; then
        echo "$text"
        return
    fi
    local exported='s/^\t\.globl\t\(bit_[a-z]*\)\(_[a-z0-9_]*\)\b.*/s,\\b\1\2\\b,\132\2,g/p'
    sed -f <(sed -n "$exported" <<< "$text") <<< "$text"
}

# Of "a::b::<#1f>" it makes a.b.1f. Two names that became one would be an error of the assembler's.
plain_names() {
    awk '{
        line = ""
        while (match($0, /"[^"]*::[^"]*"/)) {
            name = substr($0, RSTART + 1, RLENGTH - 2)
            gsub(/::(<#)?/, ".", name)
            gsub(/[^A-Za-z0-9_.]/, "", name)
            line = line substr($0, 1, RSTART - 1) name
            $0 = substr($0, RSTART + RLENGTH)
        }
        print line $0
    }'
}

# Proves all crates of exports at once, that of sets over blocks of 64 bits and of 32, each by one process, and writes their
# assembly into the folder of the processor that the source release has in SOURCE. The copies of the crates stay in COPIES.
#   assemble_all PROCESSOR COPIES SOURCE [KEPT]
assemble_all() {
    local processor="$1" copies="$2" source="$3" name process beside=()
    mkdir -p "$source/src/$processor"
    for name in "${assemblies[@]}"; do
        [ -d "$copies/$name" ] || copy_crate "$name" "$copies/$name"
    done
    # Nothing else runs from the first of these on, since bash may lose a SIGINT that comes while it takes in what $(..) gives.
    for name in "${assemblies[@]}"; do
        start_group assemble "${name%32}_c" "$copies/$name" "$processor" "$copies/$name/$processor.s" \
            ${4:+"$4/$name"} < /dev/null
        beside+=("$!")
    done
    for process in "${beside[@]}"; do
        wait_group "$process"
    done
    for name in "${assemblies[@]}"; do
        name_calls "$name" < "$copies/$name/$processor.s" > "$source/src/$processor/$name.s"
    done
}

# The headers, of which that over blocks of 32 bits is made of the other.
write_headers() {
    cp "$c"/bit_{set,roaring}.{h,hpp} "$1"
    sed 's/bit_\(set\|matrix\)/bit_\132/g; s/bit_set32_c\b/bit_set_c/; s/BIT_\(SET\|MATRIX\)/BIT_\132/g
        s/uint64_t bit_set32_block/uint32_t bit_set32_block/
        s/blocks have 64 bits/blocks have 32 bits/; s,n % 64,n % 32,; s,n / 64,n / 32,' "$c/bit_set.h" > "$1/bit_set32.h"
}

# The parts that the library is made of, of which the files are what `write_source` copies. Each has its name here, since
# what an editor or a compiler left beside them, of which git may be told to say nothing, is no part of it.
find_parts() {
    local name part
    parts=(./crates.txt ./CHANGELOG.md ./LICENSE-{MIT,APACHE} ./bindings/c/bit_{set,roaring}.{h,hpp}
        ./bindings/c/compat/roaring/roaring{,_bytes,_iterators}.h ./bindings/c/example.{c,cc,out}
        ./bindings/c/source/{Makefile,CMakeLists.txt,README.md,mem.c})
    [ ! -f "$top/HANDLES" ] || parts+=(./HANDLES)
    for name in "$top"/tests/{c_*.[ch],roaring.cc}; do
        parts+=("./tests/${name##*/}")
    done
    for name in "${exporting[@]}" $(libraries_below); do
        for part in src specs proofs; do
            [ ! -d "$crates/$name/$part" ] || parts+=("crates/$name/$part")
        done
    done
}

# Writes all of the source release into a folder but for its assembly.
write_source() {
    mkdir -p "$1"/{include,src,examples,tests,compat/roaring}
    cp "$c"/source/{Makefile,CMakeLists.txt,README.md} "$top"/LICENSE-{MIT,APACHE} "$top/CHANGELOG.md" "$1"
    cp "$c/source/mem.c" "$1/src"
    cp "$c"/compat/roaring/*.h "$1/compat/roaring"
    cp "$c"/example.{c,cc,out} "$1/examples"
    cp "$top"/tests/{c_*.[ch],roaring.cc} "$1/tests"
    write_headers "$1/include"
}
