# Which callers `tests/callers.sh` proves again, and what it records. To be sourced by tests/scripts.sh.
# shellcheck shell=bash disable=SC2154
repository="$room/callers"
mkdir -p "$repository"/{tools,crates/low/{src,out/rlib/low.rlib},crates/uses/src,tests/callers/adding} "$room/prover"
cp "$here"/{callers.sh,callers.py,copies.py} "$repository/tests"
cp "$top"/tools/{start,python}.sh "$repository/tools"
printf '%s\n' 'low:' 'uses: low' > "$repository/crates.txt"
echo '#![tactic(auto)]' > "$repository/crates/uses/src/lib.rt"
echo '// one' > "$repository/crates/low/src/lib.rt"
echo 'use low::one;' > "$repository/tests/callers/adding/right.txt"
printf '%s\n' 'wrong' '' '== f/Invariants.antt' 'use low' > "$repository/tests/callers/adding/other.txt"

# A prover that finds no proof of what says that it is wrong.
cat > "$room/prover/rattle" << 'PROVER'
#!/usr/bin/env bash
for name in $(sed -n 's/^pub mod \(.*\);$/\1/p' src/lib.rt); do
    echo "$name" >> "$STAND_INS/proved"
    if grep -q wrong "src/$name.rt"; then
        echo "fn uses::$name::f: no proof"
    else
        echo "fn uses::$name::f: proved"
    fi
done
PROVER
chmod +x "$room/prover/rattle"

# Runs the script, and looks at what it proves and counts.
expect_callers() {
    local what="$1" proved="$2" counted="$3"
    shift 3
    : > "$STAND_INS/proved"
    PATH="$room/prover:$PATH" "$repository/tests/callers.sh" "$@" > "$room/wrote" 2> "$room/said" < /dev/null
    expect "callers.sh, $what: it proves $(paste -sd ' ' "$STAND_INS/proved")" [ "$(paste -sd ' ' "$STAND_INS/proved")" = "$proved" ]
    expect "callers.sh, $what: it counts $(tail -n 1 "$room/wrote")" [ "$(tail -n 1 "$room/wrote")" = "$counted" ]
}

expect_callers 'with no record' 'other right' '1 passed, 1 failed'
expect 'callers.sh does not record a proof' grep -q '^adding/right,nothing,proved,' "$repository/tests/callers.csv"
expect 'callers.sh records what has no proof as proved' grep -q '^adding/other,invariant,NOT PROVED,' "$repository/tests/callers.csv"
expect_callers 'after that' other '1 passed, 1 failed'
sed -i 's/wrong//' "$repository/tests/callers/adding/other.txt"
expect_callers 'after a caller changed' other '2 passed, 0 failed'
expect_callers 'where nothing changed' '' '2 passed, 0 failed'
expect_callers 'anew' other '1 passed, 0 failed' --anew adding/other
echo '// two' > "$repository/crates/low/src/lib.rt"
expect_callers 'after a library changed' 'other right' '2 passed, 0 failed'
