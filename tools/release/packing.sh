# What the parts of a release share. To be sourced by release.
# shellcheck shell=bash disable=SC2154

# The processors that a machine has a library for, of which the first is that of each.
processors_of() {
    case "$1" in
        x86_64) echo x86-64 x86-64-v2 x86-64-v3 ;;
        aarch64) echo aarch64 ;;
    esac
}

# The machine's program of this name: gcc, ar or strip.
tool_of() {
    case "$1" in
        x86_64) echo "$2" ;;
        aarch64) echo "aarch64-linux-gnu-$2" ;;
    esac
}

# The source release's `make` for a processor.
#   make_for MACHINE PROCESSOR WORD..
make_for() {
    make -s -C "$source" CC="$(tool_of "$1" gcc)" AR="$(tool_of "$1" ar)" PROCESSOR="$2" "${@:3}" < /dev/null
}

# Builds the library for every processor, from the source release.
build_all() {
    local machine processor
    for machine in x86_64 aarch64; do
        for processor in $(processors_of "$machine"); do
            make_for "$machine" "$processor" all
        done
    done
}

# The newest version of glibc that one of these files needs something of.
newest_glibc() {
    objdump -T "$@" | sed -n 's/.*GLIBC_\([0-9.]*\).*/\1/p' | sort -V | tail -n 1
}

# Gives all below a folder one time and the same rights, so that nothing of when and where it was made stays. Folders of a
# group hand a bit on to what is made in them, with which dpkg-deb takes no package.
settle() {
    chmod -R u+rwX,go+rX,go-w,a-s "$1"
    find "$1" -exec touch -h -d "@$SOURCE_DATE_EPOCH" {} +
}

# Writes a folder as an archive, whose names begin with the folder's own.
#   pack FOLDER FILE
pack() {
    settle "$1"
    tar --sort=name --format=ustar --owner=0 --group=0 --numeric-owner -C "$(dirname "$1")" -cf - "$(basename "$1")" \
        | gzip -n -9 > "$2"
}
