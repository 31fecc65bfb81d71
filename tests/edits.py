"""Tries the edits that the gate tries besides those of `rt ci`: each must leave the named function without a proof.

    edits.py ROOT CRATE..

tests/gate_edits.txt names each edit, and tests/edits.txt its function. The prover is asked for the function and what it calls
alone, over the libraries below the crate as they are built in the checkout; what it proves once is kept. Edits of different
functions are tried in one run of it: each changes bodies alone, and the proof of a function rests on the contracts of others,
not on their bodies. The last line is 'N passed, M failed'.
"""

import re
import sys
import tempfile
from pathlib import Path

from copies import check_words, copy_parts, crates_of, gate_edits_of, run, write_edit

REFUSED = "refused for a value"

# How many edits are tried in one run, at the end of which they have their verdicts.
MOST = 8

# What rattle says where a tactic came to the end of what it may take, and so says nothing of the statement.
LIMITS = re.compile(r"(step|depth|time|memory|size) limit|ran out of|could not tell|no verdict|gave up")

# What it says of a file of a proof that names something which is not there.
NAMES = re.compile(r" has no (?!atom\b|last argument\b)|: no (goal|name|field|module)\b|not in scope(?! here, so)|is not (defined|declared)|unknown name")


def rounds_of(edits):
    """The edits in rounds of a few, in none of which two change the same function."""
    rounds = []
    for edit, (function, clause) in edits.items():
        free = next((it for it in rounds if len(it) < MOST and all(function != other for other, _ in it.values())), None)
        if free is None:
            free = {}
            rounds.append(free)
        free[edit] = (function, clause)
    return rounds


def messages_of(said):
    """The lines, each with the indented ones that go on with it."""
    found = []
    for line in said:
        if line.startswith(" ") and found:
            found[-1] += " " + line.strip()
        else:
            found.append(line)
    return found


def own_goals(said, function):
    """The goals of the function itself that are open: where its proof fails, and those that the notes above its line name."""
    folder, goals, above = f"./proofs/{function.replace('::', '/')}/", [], []
    for line in messages_of(said):
        if line.startswith(folder) and ": error: " in line:
            goals.append(line)
        if re.match(rf"fn \w+::{re.escape(function)}: ", line):
            goals += above
        above = [] if line.startswith("fn ") else above + [line] * ("it is not proved that" in line)
    return goals


def tells(message, pattern):
    """Whether the prover's own words are so, without the terms of the program that it quotes."""
    return re.search(pattern, re.sub("`[^`]*`", "", message))


def verdict_of(status, said, function):
    """What the prover says of a function, and the goal of its own that shows it. Only a goal that is open for a value refuses:
    a name that is gone, or a limit of the prover, says nothing of the statement."""
    line = next((it for it in said if re.match(rf"fn \w+::{re.escape(function)}: ", it)), "")
    goals = own_goals(said, function)
    values = [it for it in goals if not tells(it, LIMITS) and not tells(it, NAMES)]
    if line.endswith(": proved"):
        return "NOT REFUSED", line
    if status != 1 or not line:
        return "NO VERDICT", " ".join(said)[-300:]
    if values:
        return REFUSED, values[0]
    limits = [it for it in goals if tells(it, LIMITS)]
    return ("LIMIT", limits[0]) if limits else ("NO GOAL", (goals or [line])[0])


def try_edits(root, crates, crate, folder, edits):
    """For each edit the verdict on its function in a copy of the crate that has all of them, what shows it, and the processor
    seconds that its proof took."""
    copy_parts(root / "crates" / crate, folder)
    found = {}
    for edit in edits:
        try:
            write_edit(edit, folder)
        except (OSError, ValueError) as error:
            found[edit] = ("BAD", str(error), 0.0)
    written = {edit: it for edit, it in edits.items() if edit not in found}
    ends, last = {}, 0.0

    def at_line(line, used):
        nonlocal last
        if line.startswith("checked "):
            ends[line[len("checked ") :].partition(",")[0]] = used - last
        last = max(last, used)

    asked = [word for function, _ in written.values() for word in ("--only", function)]
    words = check_words(root, crates, crate, *asked, "--incremental", "kept", "--progress")
    status, said, _ = run(folder, *words, at_line=at_line) if written else (0, [], 0.0)
    for edit, (function, _) in written.items():
        seconds = ends.get(f"{crate}::{function}", 0.0)
        found[edit] = (*verdict_of(status, said, function), seconds)
    return found


def try_round(root, crates, crate, folder, edits):
    """As `try_edits`, and each edit by itself that another may have kept from a verdict."""
    found = try_edits(root, crates, crate, folder, edits)
    for edit, it in edits.items():
        if found[edit][0] in ("BAD", "NO GOAL", "NO VERDICT") and len(edits) > 1:
            found.update(try_edits(root, crates, crate, folder, {edit: it}))
    return found


def try_gate(root, crates, crate):
    """Tries those edits of a crate, and returns for each whether it is refused."""
    found = []
    with tempfile.TemporaryDirectory(prefix="edits-") as room:
        for edits in rounds_of(gate_edits_of(root, crate)):
            for edit, (verdict, shown, seconds) in try_round(root, crates, crate, Path(room), edits).items():
                found.append(verdict == REFUSED)
                line = f"refused: {crate}/{edit.stem}: {edits[edit][0]} in {seconds:.1f} s"
                print(line if found[-1] else f"FAILED: {crate}/{edit.stem}: {verdict}: {shown}", flush=True)
    if not found:
        found.append(False)
        print(f"FAILED: tests/gate_edits.txt names no edit of {crate}")
    return found


def main():
    root = Path(sys.argv[1])
    if len(sys.argv) < 3:
        print("usage: tests/edits.sh CRATE..", file=sys.stderr)
        return 2
    crates = crates_of(root)
    found = [it for crate in sys.argv[2:] for it in try_gate(root, crates, crate)]
    print(f"{sum(found)} passed, {len(found) - sum(found)} failed")
    return 0 if found and all(found) else 1


if __name__ == "__main__":
    sys.exit(main())
