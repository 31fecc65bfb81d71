# PROOF.txt: what was proved, and how to check it again. To be sourced by release.
# shellcheck shell=bash disable=SC2154

# Writes the file over the verdicts that are kept beside the copies of the crates.
#   write_proof COPIES FILE
write_proof() {
    local machine processor name
    {
        cat << END
The proof of bit_set $version

Commit:             $commit
Toolchain:          $(rt version)
Checksum of logic:  $(sed -n 's/.* sum=\([0-9a-f]\{64\}\)$/\1/p' "$1/bit_set/x86-64.s.said" | head -n 1)

Every call of include/bit_set.h and of include/bit_roaring.h is proved to return what its contract says, for all sets,
matrices and numbers, and to read and write nothing but what it was given. The contracts are those of crates/bit_set_c and
crates/bit_roaring_c at this commit. The prover's verdict, for each processor and each file of its folder in src:

END
        for machine in x86_64 aarch64; do
            for processor in $(processors_of "$machine"); do
                for name in "${assemblies[@]}"; do
                    printf '%-10s %-11s  %s\n' "$processor" "$name" "$(tail -n 1 "$1/$name/$processor.s.said")"
                done
            done
        done
        cat << END

The words with =trusted say that what the same prover had proved before was not proved again in that run: the libraries
below, and of this one what is the same for another processor.

What is trusted: the prover and its statements of the standard library; the compiler that made src/*/*.s from what was
proved, and the assembler, compiler and linker that make a library of these; src/mem.c and the allocator; that the caller
keeps what the headers ask, which no C compiler checks. bit_set.hpp, bit_roaring.hpp, the headers of compat, and the Rust
and Python packages, are tested and not proved. The repository's README.md says more.

To check it again, with the toolchain, in a new clone of the repository at this commit:

    ./release FOLDER

That proves all of it from nothing, and makes these files again. src/*/*.s are the same then, and by the same compilers and
headers of Python all else is, as SHA256SUMS says.
END
    } > "$2"
}
