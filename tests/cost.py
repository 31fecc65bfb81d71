"""Prints what the proof of each crate costs, in processor seconds.

    cost.py ROOT [CRATE ..]

Each crate, and its tests, is proved from nothing with one job, in a copy of its folder; the libraries below it are those
that the checkout has built. A row a crate, then the ten slowest functions of all. It ends with status 1 where a crate is not
proved. What an edit costs is in tests/edits.csv.
"""

import sys
import tempfile
from pathlib import Path

from copies import check_words, copy_parts, crates_of, run


def prove(folder, command):
    """Proves the crate from nothing. Returns whether it is proved, the seconds, and those of each function."""
    rows, last = [], 0.0

    def at_line(line, used):
        nonlocal last
        if line.startswith("checked "):
            rows.append((used - last, line[len("checked ") :].partition(",")[0]))
        last = max(last, used)

    status, _, seconds = run(folder, *command, at_line=at_line)
    return status == 0, seconds, rows


def cost_of(root, crates, name):
    """The seconds of a crate's proof and of that with its tests, the rows of its functions, and whether it is proved."""
    with tempfile.TemporaryDirectory(prefix="cost-") as room:
        folder = Path(room)
        copy_parts(root / "crates" / name, folder)
        has_tests = any("#[test]" in it.read_text() for it in folder.glob("src/**/*.rt"))
        flags = ("--jobs", "1", "--progress")
        tests = prove(folder, check_words(root, crates, name, *flags, "--test")) if has_tests else (True, 0.0, [])
        proof = prove(folder, check_words(root, crates, name, *flags))
        functions = tests[2] + [row for row in proof[2] if row[1] not in {it[1] for it in tests[2]}]
    is_proved = tests[0] and proof[0]
    said = "" if is_proved else "  NOT PROVED"
    print(f"{name:26}{proof[1]:9.0f}{tests[1]:9.0f}{said}", flush=True)
    return proof[1], tests[1], functions, is_proved


def main():
    root, crates = Path(sys.argv[1]), crates_of(Path(sys.argv[1]))
    names = sys.argv[2:] or list(crates)
    if unknown := [it for it in names if it not in crates]:
        print(f"cost: crates.txt has no crate {' '.join(unknown)}", file=sys.stderr)
        return 2
    print(f"{'processor seconds of':26}{'proof':>9}{'tests':>9}")
    found = [cost_of(root, crates, name) for name in names]
    print("\nthe slowest functions:")
    for seconds, name in sorted((row for it in found for row in it[2]), reverse=True)[:10]:
        print(f"{seconds:7.1f} s  {name}")
    print(f"\nproofs {sum(it[0] for it in found):.0f} s, with tests {sum(it[1] for it in found):.0f} s more")
    return 0 if all(it[3] for it in found) else 1


if __name__ == "__main__":
    sys.exit(main())
