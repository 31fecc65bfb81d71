# `./bitset` with the real toolchain, in a copy of this repository where a comment of the program's own crate changes. For
# the libraries below it, what `rt ci` has proved here is used in place of a proof, by a run that ends before it proves the
# program: that costs a minute, and is done once. To be sourced by tests/scripts.sh.
# shellcheck shell=bash disable=SC2154
repository="$room/repository"
proved="$top/crates"
mkdir -p "$repository" "$room/bin"
(cd "$top" && tar cf - --exclude=out bitset crates.txt tools crates) | tar xf - -C "$repository"

cat > "$room/bin/rattle" << REAL
#!/usr/bin/env bash
words=("\$@")
while [ \$# -gt 0 ]; do
    case "\$1" in
        --crate-name) crate="\$2" ;;
        -o) made="\$2" ;;
    esac
    shift
done
echo "\$crate" >> "$room/calls"
if [ "\$crate" = bitset ] && [ -e "$room/stops" ]; then
    echo 'this run stops here'
    exit 1
elif [ "\$crate" = bitset ]; then
    exec "$(command -v rattle)" "\${words[@]}"
fi
library="$proved/\$crate/out/rlib/\$crate.rlib"
cp -Rl "\$library" "\$made" 2> /dev/null || cp -R "\$library" "\$made"
REAL
chmod +x "$room/bin/rattle"
PATH="$room/bin:$PATH"

# Runs it on the first example, and looks at how it ends and at which crates it proves.
expect_run() {
    local what="$1" status="$2"
    shift 2
    : > "$room/calls"
    ended=0
    "$repository/bitset" < "$top/examples/first.txt" > "$room/wrote" 2> "$room/said" || ended=$?
    [ "$ended" -eq "$status" ] || cat "$room/said"
    expect "$what: it ends with $ended" ends_with "$status"
    expect "$what: it proves other crates than $*" [ "$(sort -u "$room/calls" | xargs)" = "$*" ]
}

touch "$room/stops"
expect_run 'from nothing' 1 bit_blocks bit_set bit_set_commands bit_set_run bit_words bitset set_algebra
expect 'it does not say why it ends' says 'this run stops here'
rm "$room/stops"
echo '// A comment.' >> "$repository/crates/bitset/src/main.rt"
expect_run 'with another comment' 0 bitset
expect 'the program writes something else' wrote $'true\nfalse\ntrue\ntrue\n1\n{400}'
expect_run 'with nothing changed' 0
expect 'the program then writes something else' wrote $'true\nfalse\ntrue\ntrue\n1\n{400}'
