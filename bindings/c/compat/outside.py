"""Writes a file of CRoaring's tests without those that reach inside containers or have a frozen form, and what these call.

python3 outside.py FROM TO       says which it leaves out
"""
import re
import sys

INSIDE = re.compile(r"high_low_container|\w+_container_t\b|_TYPE_CODE|frozen|\bra_\w+\(|_container_\w+\(")
HEAD = re.compile(r"^(?:static |inline |const )*(?:\w+ )+\**(\w+)\(")


def functions(lines):
    """Each function with the place of its first line and of the one past its last."""
    start = None
    for at, line in enumerate(lines):
        if start is None and HEAD.match(line) and not line.rstrip().endswith(";"):
            start = at
        if start is not None and (line.startswith("}") or (at == start and line.rstrip().endswith("}"))):
            yield HEAD.match(lines[start]).group(1), start, at + 1
            start = None


def main():
    lines = open(sys.argv[1]).read().splitlines(True)
    found = list(functions(lines))
    text = {name: "".join(lines[a:b]) for name, a, b in found if name != "main"}
    out = {name for name in text if INSIDE.search(text[name][text[name].index("{"):])}
    size = -1
    while size != len(out):
        size = len(out)
        out |= {name for name in text if any(re.search(rf"\b{each}\(", text[name]) for each in out)}
    left = set()
    for name, a, b in found:
        if name in out:
            left |= set(range(a, b))
    kept = [line for at, line in enumerate(lines) if at not in left]
    listed = rf"cmocka_unit_test\((?:{'|'.join(sorted(out))})\)"
    open(sys.argv[2], "w").write("".join(line for line in kept if not re.search(listed, line)))
    print("left out:", *sorted(name for name in out if name.startswith("test")))


main()
