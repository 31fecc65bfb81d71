# The commands and the examples of README. To be sourced by tests/release.sh.
# shellcheck shell=bash disable=SC2154

readme="$here/../README.md"
# Who runs a test is root already.
sudo='sudo() { "$@"; }'

# The first block of this language, or the one with this number.
#   example_of LANGUAGE [NUMBER]
example_of() {
    awk -v first="\`\`\`$1" -v number="${2:-1}" \
        '$0 == "```" { inside = 0 } inside; $0 == first && ++seen == number { inside = 1 }' "$readme"
}

# The lines of shell between this heading and the example.
commands_of() {
    echo "$sudo"
    awk -v heading="### $1" '$0 == heading { inside = 1 } /^```/ { inside = 0 } inside && sub(/^    /, "")' "$readme"
}

# The line of shell that installs Debian's packages.
packages_of_readme() { echo "$sudo; $(sed -n 's/.*`\(sudo dpkg -i [^`]*\)`.*/\1/p' "$readme")"; }

# Writes them into a folder, beside the files of the release.
write_readme() {
    mkdir -p "$1/PROGRAM"/{src,examples}
    cp "$release"/* "$1"
    example_of c > "$1/example.c"
    example_of c 2 > "$1/roaring.c"
    example_of python > "$1/example.py"
    example_of python 2 > "$1/roaring.py"
    example_of rs > "$1/PROGRAM/src/main.rs"
    example_of rs 2 > "$1/PROGRAM/examples/roaring.rs"
    printf '%s\n' '[package]' 'name = "program"' 'version = "0.1.0"' 'edition = "2021"' > "$1/PROGRAM/Cargo.toml"
    commands_of 'C and C++' > "$1/c.sh"
    commands_of Python > "$1/python.sh"
    commands_of Rust > "$1/rust.sh"
}
