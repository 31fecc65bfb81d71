#!/usr/bin/env python3
"""Times calls of Roaring bitmaps from C, from Rust and from Python, the last also beside Python's own sets. Each time is the
least processor time of 9 rounds, of a million numbers of 20 and of 30 bits, with the same numbers in each language.

    bench/roaring_doors.py LIBRARY FOLDER

LIBRARY is a folder that bindings/c/build wrote into. FOLDER keeps what is built: the programs and the module. It needs cc,
cargo, and the headers of Python. It writes a table, and ends with status 1 if a ratio is above its bar.
"""

import os
import subprocess
import sys
import time
from array import array
from pathlib import Path

TOP = Path(__file__).resolve().parent.parent
NUMBERS = 1_000_000
ROUNDS = 9
# A call, its unit and how many there are of it, and the most that Python may take of what its own sets and C take.
ROWS = [
    ("in", "ns a number", NUMBERS // 2, {"set": 1.5}),
    ("add", "ns a number", NUMBERS // 2, {"set": 1.5}),
    ("array", "ns a number", NUMBERS, {"set": 0.3}),
    ("ascending", "ns a number", NUMBERS, {"set": 0.3}),
    ("or", "us", 1000, {"set": 0.05}),
    ("and", "us", 1000, {"set": 0.05}),
    ("serialize", "us", 1000, {"C": 1.1}),
    ("deserialize", "us", 1000, {}),
    ("walk", "ns a number", NUMBERS // 2, {}),
]


def run(*words, **more):
    return subprocess.run(words, check=True, text=True, stdout=subprocess.PIPE, **more).stdout


def build(library, folder):
    """Builds both programs and the module."""
    run("cc", "-O2", f"-I{library}", TOP / "bench/roaring_doors.c", library / "libbit_set.a", "-o", folder / "doors_c")
    package = folder / "doors_rust"
    (package / "src").mkdir(parents=True, exist_ok=True)
    (package / "src/main.rs").write_text((TOP / "bench/roaring_doors.rs").read_text())
    (package / "Cargo.toml").write_text(
        '[package]\nname = "doors"\nversion = "0.0.0"\nedition = "2021"\n[workspace]\n'
        f'[dependencies]\nroaring = {{ path = "{TOP}/bindings/rust/roaring" }}\n'
    )
    environment = {**os.environ, "BIT_SET_LIBRARY_DIR": str(library), "CARGO_TARGET_DIR": str(package / "target")}
    run("cargo", "build", "--offline", "--quiet", "--release", cwd=package, env=environment)
    run(TOP / "bindings/python/build", library, folder / "module")


def times_of(program, bits):
    """The nanoseconds of each call, by what a program writes."""
    return {name: float(least) for name, least in (line.split() for line in run(program, str(bits)).splitlines())}


def least(call):
    """The least time of a call in nanoseconds. What it makes is given back after each."""
    best = float("inf")
    for _ in range(ROUNDS):
        start = time.process_time_ns()
        made = call()
        best = min(best, time.process_time_ns() - start)
        del made
    return best


def look_up(members, numbers):
    for number in numbers:
        number in members


def add_each(kind, numbers):
    made = kind()
    add = made.add
    for number in numbers:
        add(number)
    return made


def walk(members):
    for _ in members:
        pass


def times_in_python(kind, bits):
    """The nanoseconds of each call that a type has."""
    numbers = [(at * 2654435761 & 0xFFFFFFFF) >> (32 - bits) for at in range(NUMBERS)]
    half = NUMBERS // 2
    packed, ascending = array("I", numbers), array("I", sorted(set(numbers)))
    one, other = kind(numbers[:half]), kind(numbers[half // 2 : half // 2 + half])
    calls = {
        "in": lambda: look_up(one, numbers[half:]),
        "add": lambda: add_each(kind, numbers[:half]),
        "array": lambda: kind(packed),
        "ascending": lambda: kind(ascending),
        "or": lambda: one | other,
        "and": lambda: one & other,
        "walk": lambda: walk(one),
    }
    if kind is not set:
        written = one.serialize()
        calls["serialize"] = one.serialize
        calls["deserialize"] = lambda: kind.deserialize(written)
    return {name: least(call) for name, call in calls.items()}


def write_rows(bits, sides):
    """Writes a row for each call. Returns whether each ratio is within its bar."""
    are_good = True
    for name, unit, parts, bars in ROWS:
        times = {side: of[name] / parts for side, of in sides.items() if name in of}
        ratios = {side: times["Python"] / times[side] for side in ("set", "C") if side in times}
        above = [side for side, bar in bars.items() if ratios[side] > bar]
        are_good = are_good and not above
        cells = [f"{times[side]:.1f}" if side in times else "" for side in sides]
        cells += [f"{times['Rust'] / times['C']:.2f}"]
        cells += [f"{ratios[side]:.3f}" + " (above)" * (side in above) if side in ratios else "" for side in ("set", "C")]
        print(f"| {name}, {bits} bits, {unit} | " + " | ".join(cells) + " |", flush=True)
    return are_good


def main():
    if len(sys.argv) != 3:
        sys.exit("usage: bench/roaring_doors.py LIBRARY FOLDER")
    library, folder = (Path(word).resolve() for word in sys.argv[1:])
    folder.mkdir(parents=True, exist_ok=True)
    build(library, folder)
    sys.path.insert(0, str(folder / "module"))
    from bit_set import RoaringBitmap

    print("| call | C | Rust | Python | set | Rust / C | Python / set | Python / C |\n|---|---|---|---|---|---|---|---|")
    are_good = True
    for bits in (20, 30):
        sides = {"C": times_of(folder / "doors_c", bits), "Rust": times_of(folder / "doors_rust/target/release/doors", bits)}
        sides.update(Python=times_in_python(RoaringBitmap, bits), set=times_in_python(set, bits))
        are_good = write_rows(bits, sides) and are_good
    sys.exit(0 if are_good else 1)


if __name__ == "__main__":
    main()
