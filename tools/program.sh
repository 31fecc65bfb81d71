# Proves and builds the program `bitset` from a copy of its sources. To be sourced by tools/run.sh.
# shellcheck shell=bash disable=SC2154
# In `out` stand NAME.rlib of each library, with statements and no proofs; the program; and for each of these NAME.made,
# which says of what it was made and what its own checksum is. All that a run reads and makes is in `room`, a folder of its
# own: what is whole goes from there to `out`. So nothing that another run, or a prover that one left, writes into `out`
# comes into what this one builds.
# shellcheck source=tools/ending.sh
. "$root/tools/ending.sh"
# The crates of the program, lowest first, what the line of each names, and which crates are below it.
crates=()
declare -gA named=() below=()
# Of each crate the checksum of what is built, once it is, and of what that is made of. The crate that each process proves,
# and when each began.
declare -gA sums=() made=() runs=() began=()
# The process that was given all cores, where one was.
first=""
# Where the toolchain is, and what it is.
kit=""
toolchain=""

# Reads which crates the program is made of, from a crates.txt.
read_crates() {
    local name words word
    crates=()
    named=()
    while read -r name words; do
        crates+=("$name")
        named[$name]="$words"
        below[$name]=""
        for word in $words; do
            [ -z "${named[$word]+is a crate here}" ] || below[$name]+="${below[$word]} $word "
        done
    done < <(awk -F: '
        { sub(/\r$/, ""); sub(/#.*/, "") }
        NF > 1 { split($1, words, " "); below[words[1]] = $2 }
        function visit(name,    count, i, names) {
            if (!(name in below) || name in seen) return
            seen[name]
            count = split(below[name], names, " ")
            for (i = 1; i <= count; i++) visit(names[i])
            print name, below[name]
        }
        END { visit("bitset") }
    ' "$1")
    [ "${#crates[@]}" -gt 0 ] || stop "$root/crates.txt has no line of the crate bitset"
}

# Finds the toolchain, where its commands are on the PATH, and takes a checksum of those that build.
read_toolchain() {
    local of_last=()
    if hash rt rattle 2> /dev/null; then
        if ! toolchain="$(rt version)" || ! kit="$(rt doc)"; then
            stop "the toolchain's command ${BASH_CMDS[rt]} does not work"
        fi
        kit="${kit%%$'\n'*}"
        kit="${kit%/*}"
        tools=("${BASH_CMDS[rt]}" "${BASH_CMDS[rattle]}" "$kit/KIT-ID" "$kit/bin/rattle-link")
        toolchain="${toolchain//$'\n'/ } $(sha256sum < "${tools[1]}") $(sha256sum < "${tools[3]}")"
    elif [ -f "$built/toolchain" ]; then
        mapfile -t of_last < "$built/toolchain"
        toolchain="${of_last[0]}"
        tools=("${of_last[@]:1}")
    fi
}

# The parts that the program is made of: the toolchain's commands, scripts, and the sources of the crates.
find_parts() {
    local crate part
    read_crates "$root/crates.txt"
    parts=("${tools[@]}" ./bitset ./crates.txt ./tools/{run,start,copy,ending,program}.sh ./tools/{left_out.txt,needed})
    for crate in "${crates[@]}"; do
        for part in src specs proofs; do
            [ ! -d "$root/crates/$crate/$part" ] || parts+=("crates/$crate/$part")
        done
    done
}

# The checksums of a file, or of all files in a folder.
list_sums() {
    (cd "${1%/*}" && find "${1##*/}" -type f -print0 | LC_ALL=C sort -z | xargs -0 -r sha256sum)
}

# One of all these.
sum_of() { list_sums "$1" | sha256sum; }

# What is built of a crate.
file_of() {
    case "$1" in
        bitset) echo bitset ;;
        *) echo "$1.rlib" ;;
    esac
}

# A checksum of all that a crate is made of: how, by which toolchain, of which sources, and over which libraries.
made_of() {
    local library
    {
        declare -f compile source_of
        echo "$toolchain" "${named[$1]}"
        cat "$room/copy/tools"/{needed,left_out.txt}
        list_sums "$room/copy/crates/$1"
        for library in ${below[$1]}; do
            echo "$library ${sums[$library]}"
        done
    } | sha256sum
}

# Puts what is built of a crate into another folder too. A library's files are the same ones there where the disk can have
# them, for who makes it anew makes others.
#   place CRATE FROM TO
place() {
    local file
    file="$(file_of "$1")"
    rm -rf "${3:?}/$file"
    if [ ! -d "$2/$file" ] || ! cp -Rl "$2/$file" "$3/$file" 2> /dev/null; then
        rm -rf "${3:?}/$file"
        cp -R "$2/$file" "$3/$file"
    fi
}

# Whether what stands in `out` of a crate is whole, and was made of the copy. It is then in `room` too.
is_built() {
    made[$1]="$(made_of "$1")"
    [ -f "$built/$1.made" ] && place "$1" "$built" "$room" 2> /dev/null || return
    sums[$1]="$(sum_of "$room/$(file_of "$1")")"
    [ "$(< "$built/$1.made")" != "${made[$1]}"$'\n'"${sums[$1]}" ] || return 0
    unset "sums[$1]"
    return 1
}

# How many cores a build uses.
cores() {
    local found
    found="$(nproc)"
    echo $((found < 4 ? found : 4))
}

# How many processes may prove a crate: one a core, where there are 2 GB of memory for each.
all_jobs() {
    local memory jobs
    memory="$(awk '/^MemAvailable/ { print int($2 / 2000000) + 1 }' /proc/meminfo)"
    jobs="$(cores)"
    echo $((${memory:-1} < jobs ? ${memory:-1} : jobs))
}

# The folder of what is compiled of a crate: the modules that tools/left_out.txt names are not among it.
source_of() {
    "$room/copy/tools/needed" "$1" "$room/copy/parts/$1" && echo "$room/copy/parts/$1"
}

# Proves and builds a crate by so many processes: a library as those above it read it, and the program as it is run.
compile() {
    local name="$1" library words source
    words=(--crate-name "$name" --jobs "$2" --links "$name=" --extern "std=$kit/rlibs/std.rlib")
    for library in ${named[$name]}; do
        if [ -n "${named[$library]+is a crate here}" ]; then
            words+=(--extern "$library=$room/$library.rlib")
        else
            words+=(--extern "$library=$kit/rlibs/$library.rlib")
        fi
    done
    words+=(-L "dependency=$kit/rlibs" -L "dependency=$room")
    words+=(--antt-project "$kit/rattle/logic/antt-project.json" --logic-built "$kit/logic_built")
    source="$(source_of "$name")" && cd "$source" || return
    if [ "$name" != bitset ]; then
        rattle build "${words[@]}" --statements -o "$room/$name.rlib" src/lib.rt
        return
    fi
    rattle build "${words[@]}" --toolchain "$kit/toolchain" -o "$room/bitset.o" src/main.rt \
        && "$kit/bin/rattle-link" --target x86_64-unknown-linux-gnu --toolchain "$kit/toolchain" -o "$room/bitset" \
            "$room/bitset.o" "$kit/c/libos_c.a" "$kit/c/liblibc_c.a"
}

# Does that, or says what failed. Where the system ends a process, most likely for memory, one tries again.
make() {
    local name="$1" said status=0
    said="$(compile "$name" "$2" 2>&1)" || status=$?
    if [ "$status" -eq 137 ]; then
        status=0
        said="$(compile "$name" 1 2>&1)" || status=$?
    fi
    if [ "$status" -ne 0 ]; then
        printf '%s\n' "$said" "bitset: that of $name ended with status $status" >&2
        return "$status"
    fi
}

# Starts that. A crate that is begun beside another is proved by one process: what stands on both waits for the later of
# the two.
start() {
    local jobs=1
    [ -n "$kit" ] || stop "the toolchain's commands rt and rattle are not on the PATH" 127
    [ "${#runs[@]}" -gt 0 ] || [ -n "$has_said" ] || say_minutes
    [ -n "$first" ] || jobs="$(all_jobs)"
    echo "bitset: proving and building $1" >&2
    start_group make "$1" "$jobs"
    [ -n "$first" ] || first=$!
    runs[$!]="$1"
}

# Says what a build takes from nothing, by the number of cores.
say_minutes() {
    local minutes=(0 32 22 16 13)
    has_said=yes
    echo "bitset: all ${#crates[@]} crates from nothing take about ${minutes[$(cores)]} minutes on $(cores) cores (./look runs them unproved in one or two)" >&2
}

# Whether all that a crate stands on is built.
can_start() {
    local library
    for library in ${below[$1]}; do
        [ -n "${sums[$library]:-}" ] || return 1
    done
}

# Puts the crates with the most text first: of those that can be begun at one time the longest gets all cores.
order_crates() {
    mapfile -t crates < <(cd "$room/copy/crates" && du -s --apparent-size -- "${crates[@]}" | sort -rn | cut -f 2)
}

# Begins each crate that is not begun, and stands on what is built.
start_all() {
    local crate
    for crate in "${crates[@]}"; do
        if [ -z "${began[$crate]:-}" ] && can_start "$crate"; then
            began[$crate]=$SECONDS
            is_built "$crate" || start "$crate"
        fi
    done
}

# Takes what a process has made that has ended: unless what it was made of is not the same any more.
finish() {
    local crate="${runs[$1]}" library
    wait_group "$1" || stop "$crate is not proved or not built"
    unset "runs[$1]"
    [ "$1" != "$first" ] || first=""
    for library in ${below[$crate]}; do
        sums[$library]="$(sum_of "$room/$(file_of "$library")")"
    done
    [ "$(made_of "$crate")" = "${made[$crate]}" ] || stop "what $crate was built of was changed meanwhile: run this again"
    sums[$crate]="$(sum_of "$room/$(file_of "$crate")")"
    rm -f "$built/$crate.made"
    place "$crate" "$room" "$built" || stop "$built cannot be written"
    printf '%s\n' "${made[$crate]}" "${sums[$crate]}" > "$built/$crate.made"
    echo "bitset: $crate took $((SECONDS - began[$crate])) seconds, ${#sums[@]} of ${#crates[@]} crates are done" >&2
}

# Waits until a process has ended.
finish_some() {
    local run
    wait -n "${!runs[@]}" || true
    for run in "${!runs[@]}"; do
        kill -0 "$run" 2> /dev/null || finish "$run"
    done
}

# Keeps the stamp of all that the program was built from: but not where a file was changed so late before the copy that a
# change after it might leave the same times.
keep_stamp() {
    local late program
    rm -f "$built/stamp"
    printf '%s\n' "$toolchain" "${tools[@]}" > "$built/toolchain"
    late="$(find_files "${parts[@]}" -- -newerct "@$((start_time - 2))" -print -quit)" || return 0
    program="$(stamp ./out/bitset)" || return 0
    [ -z "$late" ] || return 0
    printf '%s\n' $((${#parts[@]} + 1)) "${parts[@]}" ./out/bitset "$stamped" "$program" > "$room/stamp"
    mv "$room/stamp" "$built/stamp"
}

# Proves and builds the crates that are not built of the copy, each as soon as those that it stands on are done.
build() {
    local start_time stamped has_said='' tools=() parts=()
    # Temporary files of what this starts are in `room` too.
    local -x TMPDIR="$built"
    [ -f "$root/crates.txt" ] || stop "there is no crates.txt in $root, which names the crates of the program"
    mkdir -p "$built"
    # The folder may be made anew meanwhile, so the lock is beside it.
    lock "$root/.bitset.lock" 'proves and builds here, or a prover that one left' || exit 1
    runs_programs "$built" || stop "no program can be run from $built: is its disk mounted with noexec?"
    rm -rf "$built"/tmp.*
    make_room || stop "$built cannot be written"
    start_time="$(date +%s)"
    read_toolchain
    take_copy "$room/copy" find_parts || stop "the sources cannot be copied to $room/copy"
    order_crates
    while [ "${#sums[@]}" -lt "${#crates[@]}" ]; do
        start_all
        [ "${#runs[@]}" -eq 0 ] || finish_some
    done
    [ -x "$built/bitset" ] || chmod +x "$built/bitset"
    keep_stamp
    if [ "$(stamp "${parts[@]}")" != "$stamped" ]; then
        echo "bitset: a source was changed meanwhile: this runs the program as it was before, and the next run builds it again" >&2
    fi
    clean_up
    trap - EXIT HUP INT QUIT TERM TSTP TTOU
    exec {locked}>&-
}
