# What others wrote for sets, and tables of times, which are ended by signals. To be sourced by tests/scripts.sh.
# shellcheck shell=bash disable=SC2154
set_up_waiting
mkdir "$room/built"
touch "$room/built/libbit_set.a"

# What others wrote for sets, which is empty here, with a stand-in for what runs it.
clients="$room/clients"
registry="$clients/root/usr/share/cargo/registry"
for package in bit-set fancy-regex fixedbitset lalrpop petgraph proptest; do
    mkdir -p "$registry/$package-1.0"/{src,tests/common}
    touch "$registry/$package-1.0"/{Cargo.toml,src/lib.rs,tests/{captures,finding,matching,replace}.rs}
done
mkdir "$room/runs" "$clients/croaring"
for command in apt-get dpkg-deb python3; do
    ln -s "$(type -P true)" "$room/runs/$command"
done
cat > "$room/runs/cargo" << 'RUNS'
#!/bin/sh
echo "cargo $$ $*" >> "$STAND_INS/calls"
exec sleep "$(cat "$STAND_INS/seconds")"
RUNS
chmod +x "$room/runs/cargo"
for signal in HUP INT QUIT TERM; do
    ended_by_signal bindings/c/clients "$signal" 'test --offline' \
        env PATH="$room/runs:$PATH" "$top/bindings/c/clients" "$room/built" "$clients"
    ended_by_signal 'bindings/c/clients speed' "$signal" 'run --offline' \
        env PATH="$room/runs:$PATH" "$top/bindings/c/clients" "$room/built" "$clients" speed
done
ended=0
env PATH="$room/runs:$PATH" "$top/bindings/c/clients" "$room/built" "$clients" speed \
    > "$room/wrote" 2> "$room/said" < /dev/null || ended=$?
expect "bindings/c/clients speed ends with $ended: $(cat "$room/said")" ends_with 0
ln -sf "$(type -P false)" "$room/runs/cargo"
ended=0
env PATH="$room/runs:$PATH" "$top/bindings/c/clients" "$room/built" "$clients" \
    > "$room/wrote" 2> "$room/said" < /dev/null || ended=$?
expect "bindings/c/clients whose first tests fail ends with $ended" ends_with 1
expect 'bindings/c/clients goes on where tests fail' not says 'all passed'

# Tables of times, over peers that are empty here, where a stand-in for rustc makes a program that only begins.
benched="$room/benched"
kept="$room/bench_kept"
mkdir -p "$benched/crates"/bench_{,user_}calls/src "$kept/root/usr/share/cargo/registry"/{bit-set,bit-vec,fixedbitset}-1/src \
    "$kept"/{libroaring0/usr/lib/here,llvm-14-dev,x86-64-v2} "$STAND_INS/kit/c"
cp -r "$top"/{bench,tools} "$benched"
touch "$benched/crates.txt" "$benched/crates"/bench_{,user_}calls/src/lib.rt "$STAND_INS/kit/c/liblibc_c.a" \
    "$kept/root/usr/share/cargo/registry"/{bit-set,bit-vec,fixedbitset}-1/src/lib.rs \
    "$kept/libroaring0/usr/lib/here/libroaring.so.0" "$kept/x86-64-v2/libroaring.so"
cat > "$room/waiting/rustc" << 'RUSTC'
#!/bin/sh
for word; do
    [ "$before" != -o ] || ln -sf "${0%/*}/program" "$word"
    before="$word"
done
RUSTC
chmod +x "$room/waiting/rustc"
# What the toolchain has made of this library already.
for name in bench_calls bench_user_calls; do
    mkdir -p "$benched/crates/$name/out/x86-64-v2"
    touch "$benched/crates/$name/out/x86-64-v2/lib$name.a"
    rt version > "$benched/crates/$name/out/x86-64-v2/lib$name.a.by"
done
ln -s "$(type -P true)" "$room/waiting/clang++"
for table in work offsets; do
    ended_by_signal "bench/run of $table" TERM waits env PATH="$room/waiting:$PATH" "$benched/bench/run" "$kept" "$table"
done
