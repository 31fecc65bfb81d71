"""Proves the callers of tests/callers, which the gate does not, and keeps a record.

    callers.py ROOT [--anew] [KIND/NAME ..]

tests/callers/KIND/NAME.txt has the source of a caller. A line '== PATH' begins the file of its proof that belongs at PATH below
proofs/NAME/. All are modules of a crate that stands in for `uses` in a folder of its own, over the libraries that the checkout
has built. tests/callers.csv has a row for each: what its proof needed beside the lemmas that every function of `uses` names, the
verdict, and the checksums of its file and of the libraries that it calls, with those below them. The last line is
'N passed, M failed'.
"""

import csv
import functools
import hashlib
import re
import sys
import tempfile
from pathlib import Path

from copies import PARTS, all_below, check_words, crates_of, run

COLUMNS = ("caller", "needed", "verdict", "checksum", "libraries")
PROVED, NO_VERDICT = "proved", "NO VERDICT"

# The crate that they stand in for.
CRATE = "uses"

# What the prover says of a closure by itself. The line of the function that hands it on says whether it gives what that asks.
OF_CLOSURE = "proved where its callers give what it asks"


def name_of(caller):
    """A caller as words and rows name it."""
    return f"{caller.parent.name}/{caller.stem}"


def files_of(caller):
    """The files of a caller by their paths in the crate."""
    source, *rest = re.split(r"^== (.+)\n", caller.read_text(), flags=re.M)
    proofs = {f"proofs/{caller.stem}/{path}": text for path, text in zip(rest[::2], rest[1::2])}
    return {f"src/{caller.stem}.rt": source, **proofs}


def needed_of(caller):
    """What the proof of a caller needed."""
    files = files_of(caller)
    source = files[f"src/{caller.stem}.rt"]
    answers = [line for path, text in files.items() if path.endswith("/Answers.antt") for line in text.splitlines()]
    by_hand = sum(bool(line) and not line.startswith(("use ", "--", "pub ")) for line in answers)
    found = ["invariant"] * any(path.endswith("/Invariants.antt") for path in files)
    found += ["law"] * ("laws::" in source) + ["named lemma"] * ("#[tactic(" in source) + ["prove!"] * ("prove!(" in source)
    found += [f"{by_hand} line{'s' * (by_hand > 1)}"] * (by_hand > 0)
    return ", ".join(found) or "nothing"


def checksum(texts):
    """The first digits of the checksum of these bytes."""
    return hashlib.sha256(b"\0".join(texts)).hexdigest()[:12]


@functools.cache
def checksum_of(root, libraries):
    """The checksum of the files of libraries."""
    folders = [root / "crates" / name / part for name in libraries for part in PARTS]
    return checksum(path.read_bytes() for folder in folders for path in sorted(folder.rglob("*")) if path.is_file())


def row_of(root, crates, caller, verdict):
    """The row of a caller."""
    text = caller.read_text()
    named = [it for it in crates[CRATE] if re.search(rf"\b{it}\b", text)]
    libraries = tuple(sorted({it for name in named for it in [name, *all_below(crates, name)]}))
    row = (name_of(caller), needed_of(caller), verdict, checksum([text.encode()]), checksum_of(root, libraries))
    return dict(zip(COLUMNS, row))


def prove(root, crates, callers):
    """Proves callers in one run, and returns for each the verdict and what shows it."""
    tactic = re.search(r"^#!\[tactic.*", (root / "crates" / CRATE / "src" / "lib.rt").read_text(), re.M)[0]
    with tempfile.TemporaryDirectory(prefix="callers-") as room:
        files = {path: text for caller in callers for path, text in files_of(caller).items()}
        files["src/lib.rt"] = "\n".join([tactic, *(f"pub mod {caller.stem};" for caller in callers), ""])
        for path, text in files.items():
            (Path(room) / path).parent.mkdir(parents=True, exist_ok=True)
            (Path(room) / path).write_text(text)
        _, said, _ = run(room, *check_words(root, crates, CRATE))
    return {caller: verdict_of(said, caller.stem) for caller in callers}


def prove_all(root, crates, callers):
    """As `prove`, and again those that another, which does not compile, kept from a verdict."""
    found, left = {}, callers
    while left:
        found.update(prove(root, crates, left))
        rest = [it for it in left if found[it][0] == NO_VERDICT]
        left = rest if len(rest) < len(left) else []
    return found


def verdict_of(said, name):
    """What the prover says of the functions of a module, and the line that shows it."""
    lines = [line for line in said if line.startswith(f"fn {CRATE}::{name}::")]
    faults = [line for line in said if re.match(rf"(\./)?(src|proofs)/{name}[./]", line) and "error" in line]
    proved = [line for line in lines if line.endswith(": proved")]
    others = faults + [line for line in lines if line not in proved and not line.endswith(OF_CLOSURE)]
    if not others:
        return (PROVED, proved[0]) if proved else (NO_VERDICT, " ".join(said)[-300:])
    return "NOT PROVED", others[0]


def main():
    root, words = Path(sys.argv[1]), sys.argv[2:]
    crates, path = crates_of(root), root / "tests" / "callers.csv"
    listed = {name_of(it): it for it in sorted((root / "tests" / "callers").glob("*/*.txt"))}
    asked = [it for it in words if it != "--anew"] or list(listed)
    if unknown := [it for it in asked if it not in listed]:
        print(f"callers: no KIND/NAME of tests/callers: {' '.join(unknown)}", file=sys.stderr)
        return 2
    rows = {row["caller"]: row for row in csv.DictReader(path.open())} if path.exists() else {}
    wanted = {it: row_of(root, crates, listed[it], PROVED) for it in asked}
    left = [listed[it] for it in asked if "--anew" in words or rows.get(it) != wanted[it]]
    for caller, (verdict, shown) in prove_all(root, crates, left).items():
        rows[name_of(caller)] = row_of(root, crates, caller, verdict)
        if verdict != PROVED:
            print(f"FAILED: {name_of(caller)}: {verdict}: {shown[:200]}")
    with path.open("w") as file:
        out = csv.DictWriter(file, COLUMNS, lineterminator="\n")
        out.writeheader()
        out.writerows(rows[it] for it in listed if it in rows)
    failed = sum(rows[it]["verdict"] != PROVED for it in asked)
    print(f"{len(asked) - failed} passed, {failed} failed")
    return 1 if failed else 0


if __name__ == "__main__":
    sys.exit(main())
