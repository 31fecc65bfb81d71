"""Tries every edit of tests/edits.txt, also those that the gate does not, and keeps a record.

    all_edits.py ROOT [--anew | --left] [CRATE | CRATE/EDIT ..]

tests/edits.csv has a row for each edit that was refused for a value (see edits.py): the processor seconds of its function, and
a checksum of the edit, of its function's name and of the text of its crate. So a row holds for this text alone: of another it
says nothing, and goes as the next row is written. Rows are written as they come, and an edit that has one is not tried again,
so that a run which was stopped goes on where it was; --anew tries all. The last line is 'N passed, M failed'. --left tries none
and names those that have no row; its last line is 'N recorded, M left'.
"""

import csv
import hashlib
import shutil
import sys
import tempfile
from pathlib import Path

from copies import PARTS, crates_of, edits_of
from edits import REFUSED, rounds_of, try_round

COLUMNS = ("edit", "seconds", "checksum")


def text_of(root, crate):
    """The sources, definitions and proofs of a crate, and where each is in it."""
    folder, text = root / "crates" / crate, b""
    for path in sorted(it for part in PARTS for it in (folder / part).rglob("*") if it.is_file()):
        text += f"{path.relative_to(folder)}\0".encode() + path.read_bytes() + b"\0"
    return text


def checksums_of(root, crate, edits):
    """Of each of these edits of a crate, by CRATE/EDIT, the checksum of what its verdict is of."""
    text, found = text_of(root, crate), {}
    for edit, (function, _) in edits.items():
        edited = edit.read_bytes() if edit.exists() else b""
        found[f"{crate}/{edit.stem}"] = hashlib.sha256(b"\0".join([function.encode(), edited, text])).hexdigest()[:16]
    return found


class Record:
    """The rows of tests/edits.csv."""

    def __init__(self, root, checksums):
        self.path, self.checksums = root / "tests" / "edits.csv", checksums

    def rows(self):
        """Those that hold for the text that is there, by their edits."""
        if not self.path.exists():
            return {}
        with self.path.open() as file:
            rows = {row["edit"]: row for row in csv.DictReader(file)}
        return {it: rows[it] for it, sum_ in self.checksums.items() if it in rows and rows[it]["checksum"] == sum_}

    def put(self, edit, seconds):
        """Writes the row of an edit; of None there is none. What ends it leaves the old rows."""
        rows = {**self.rows(), edit: dict(zip(COLUMNS, (edit, seconds, self.checksums[edit])))}
        if seconds is None:
            del rows[edit]
        new = self.path.with_suffix(".new")
        with new.open("w") as file:
            out = csv.DictWriter(file, COLUMNS, lineterminator="\n")
            out.writeheader()
            out.writerows(rows[it] for it in self.checksums if it in rows)
        new.replace(self.path)


def try_crate(root, crates, crate, edits, record):
    """Tries these edits of a crate, over what an earlier check in its folder has kept, and records those that are refused."""
    with tempfile.TemporaryDirectory(prefix="all-edits-") as room:
        folder, kept = Path(room), root / "crates" / crate / "out" / "incremental"
        if kept.is_dir():
            shutil.copytree(kept, folder / "kept")
        for part in rounds_of(edits):
            tried = try_round(root, crates, crate, folder, part)
            checksums = checksums_of(root, crate, part)
            for edit, (verdict, shown, seconds) in tried.items():
                name = f"{crate}/{edit.stem}"
                if checksums[name] != record.checksums[name]:
                    verdict = "CHANGED MEANWHILE"
                record.put(name, f"{seconds:.1f}" if verdict == REFUSED else None)
                print(f"{seconds:7.1f} s  {verdict}: {name}: {shown[:200]}", flush=True)


def main():
    root, words = Path(sys.argv[1]), sys.argv[2:]
    crates = crates_of(root)
    edits = {name: edits_of(root, name) for name in crates}
    checksums = {edit: it for name in crates for edit, it in checksums_of(root, name, edits[name]).items()}
    asked = [it for it in words if it not in ("--anew", "--left")] or list(crates)
    if unknown := [it for it in asked if it not in crates and it not in checksums]:
        print(f"all_edits: no crate and no CRATE/EDIT of tests/edits.txt: {' '.join(unknown)}", file=sys.stderr)
        return 2
    asked = [it for it in checksums if it in asked or it.partition("/")[0] in asked]
    record = Record(root, checksums)
    kept = {} if "--anew" in words else record.rows()
    for name in crates if "--left" not in words else ():
        named = {it: edits[name][it] for it in edits[name] if f"{name}/{it.stem}" in asked}
        if left := {edit: it for edit, it in named.items() if f"{name}/{edit.stem}" not in kept}:
            try_crate(root, crates, name, left, record)
    rows = record.rows()
    failed = [it for it in asked if it not in rows]
    word, passed, left = ("left", "recorded", "left") if "--left" in words else ("FAILED", "passed", "failed")
    for it in failed:
        print(f"{word}: {it}")
    print(f"{len(asked) - len(failed)} {passed}, {len(failed)} {left}")
    return 1 if failed else 0


if __name__ == "__main__":
    sys.exit(main())
