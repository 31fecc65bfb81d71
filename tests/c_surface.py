"""Compares the public calls of BitSet, BitMatrix, RoaringBitmap and RoaringTreemap with tests/c_surface.txt, the calls of the
libraries for C with their headers, and the packages for Rust, C++ and Python with both: which calls for C each makes, and
which functions it has itself.

python3 c_surface.py TOP       writes a line for each difference, and ends with status 1 where there is one
"""

import fnmatch
import re
import sys
from collections import Counter
from pathlib import Path


# A type, the crate that it is in, the header with its calls for C, and what the names of these begin with. The list has the
# calls of the first by their names alone, and those of the others behind their own.
TYPES = [
    ("BitSet", "bit_set", "bit_set.h", "bit_set_", ""),
    ("BitMatrix", "bit_matrix", "bit_set.h", "bit_matrix_", "BitMatrix::"),
    ("RoaringBitmap", "roaring", "bit_roaring.h", "bit_roaring_", "RoaringBitmap::"),
    ("RoaringTreemap", "roaring_treemap", "bit_roaring.h", "bit_roaring64_", "RoaringTreemap::"),
]

# Each header, and the crate that exports its calls.
HEADERS = {"bit_set.h": "bit_set_c", "bit_roaring.h": "bit_roaring_c"}


def texts_in(folder, pattern):
    """The texts of the sources in a folder."""
    return [path.read_text() for path in sorted(folder.rglob(pattern))]


def rattle_calls(sources, name):
    """The names of the functions that the blocks `impl .. NAME` of the sources have, without those of a trait."""
    calls = set()
    for text in texts_in(sources, "*.rt"):
        inside = False
        for line in text.splitlines():
            if line.startswith("impl"):
                inside = bool(re.match(rf"impl(<[^>]*>)? {name}[< ]", line))
            elif inside and (found := re.match(r"    pub fn (\w+)", line)):
                calls.add(found.group(1))
    return calls


# The calls for C: those that are exported, those that the header declares, and those that each package makes.
def exported(top, crate):
    texts = texts_in(top / "crates" / crate / "src", "*.rt")
    return {name for text in texts for name in re.findall(r'^pub extern "C" fn (\w+)', text, re.MULTILINE)}


def declared(top, header):
    lines = (top / "bindings/c" / header).read_text().splitlines()
    names = r"[a-z].*\b(bit_(?:set|matrix|roaring|roaring64)_[a-z_]+)\("
    found = [re.match(names, line) for line in lines if not line.startswith("static")]
    return {it.group(1) for it in found if it}


def made_in_bit_set_sys(top):
    text = (top / "bindings/rust/bit-set-sys/src/lib.rs").read_text()
    parts = zip(re.split(r"^calls! \{", text, flags=re.MULTILINE)[1:], ["bit_set_", "bit_matrix_"])
    lines = [(prefix, line) for part, prefix in parts for line in part.splitlines()]
    found = {prefix + name for prefix, line in lines for name in re.findall(r"^        \[?(\w+)(?:\(| of)", line)}
    roaring = (top / "bindings/rust/bit-set-sys/src/roaring.rs").read_text()
    return found | set(re.findall(r"^    pub fn (bit_roaring(?:64)?_\w+)", roaring, re.MULTILINE))


def made_in_bit_set(top):
    found = set()
    for text in texts_in(top / "bindings/rust/bit-set/src", "*.rs"):
        found |= {f"bit_matrix_{name}" for name in re.findall(r"\bB::Rows::(\w+)", text)}
        found |= {f"bit_set_{name}" for name in re.findall(r"\b(?:B|raw::Calls>)::([a-z]\w+)", text)}
    # The others are of its own trait.
    return found & made_in_bit_set_sys(top)


def made_in_roaring(top):
    texts = texts_in(top / "bindings/rust/roaring/src", "*.rs")
    return {name for text in texts for name in re.findall(r"\bbit_roaring(?:64)?_\w+", text)}


def made_in_python(top):
    """Those of the texts that are for both kinds of bitmaps are called by CALL."""
    texts = texts_in(top / "bindings/python/src", "*.c") + texts_in(top / "bindings/python/src", "bitmap*.h")
    found = {name for text in texts for name in re.findall(r"\bbit_(?:set|matrix|roaring|roaring64)_\w+", text)}
    of_both = {name for text in texts for name in re.findall(r"\bCALL\((\w+)\)", text)}
    return found | {before + name for before in ("bit_roaring_", "bit_roaring64_") for name in of_both}


# The functions of each package, by the types that they are of. One name may stand for several. Those of no trait, or of one
# that the package keeps to itself, are its own unless they are public.
PRIVATE = (None, "Members")


def functions_in_rust(folder, own, owners={}):
    """Those that are public or of a trait, and those that macros make from a line for the package's own type, or in a folder
    with an owner of its own for that. Some macros make impls for a set, and one for its two iterators."""
    found, uses, macro = {}, [], None
    for path in sorted((folder / "src").rglob("*.rs")):
        name = trait = None
        of_macros = owners.get(path.parent.name, own)
        for line in path.read_text().splitlines():
            if head := re.match(r"macro_rules! (handles|fillings|iterators?) ", line):
                macro = head.group(1)
            elif macro and line == "}":
                macro = None
            line = line.removeprefix(" " * 8) if macro else line
            if made := re.match(r"(handles|fillings|iterators)!\((\w+) of", line):
                uses.append(made.groups())
            elif head := re.match(r"(?:unsafe )?impl(?:<[^>]*>)? (?:([\w:]+)(?:<[^>\[]*>)? for )?&?(?:'\w+ )?(\$?\w+)", line):
                trait, name = head.groups()
                name = name.replace("$", f"{macro} $")
            elif made := re.match(r"    [A-Z]\w+(?: over .*)?, (\w+)(?: of other)?[:;]", line):
                found.setdefault(of_macros, Counter())[made.group(1)] += 1
            elif made := re.match(r"    [A-Z]\w+ (\w+), [A-Z]\w+ (\w+):(?: |$)", line):
                found.setdefault(of_macros, Counter()).update(made.groups())
            elif (it := re.match(r"    (pub )?(?:const |unsafe )*fn (\w+)", line)) and name and (it.group(1) or trait not in PRIVATE):
                found.setdefault(name, Counter())[it.group(2)] += 1
            elif line.startswith("}"):
                name = None
    for each, kind in uses:
        found.setdefault(kind, Counter()).update(found[f"{each} $Set"])
    for kind in ("Iter", "IntoIter"):
        for _ in [each for each, _ in uses if each == "iterators"]:
            found.setdefault(kind, Counter()).update(found["iterator $Iter"])
    return found


def functions_in_cpp(top):
    """The public ones of each class, with its operators."""
    found, name, is_public = {}, None, False
    # Not those that bindings/c/build copied into bindings/c/out.
    texts = [path.read_text() for path in sorted((top / "bindings/c").glob("*.hpp"))]
    for line in [line for text in texts for line in text.splitlines()]:
        if head := re.match(r"class (\w+) \{", line):
            name, is_public = head.group(1), False
        elif line == "public:":
            is_public = True
        elif is_public and (it := re.match(r"    (?! )[^(/]*?(operator\S+?|~?\w+)\(", line)):
            found.setdefault(name, Counter())[it.group(1)] += 1
    return found


def functions_in_python(top):
    """The methods and attributes in the tables of the module."""
    text = (top / "bindings/python/src/module.c").read_text()
    types = {"set": "BitSet", "bitmap": "RoaringBitmap", "wide": "RoaringBitmap64", "matrix": "BitMatrix"}
    found = {name: Counter(re.findall(rf"^    METHOD\({of}, (\w+)", text, re.MULTILINE)) for of, name in types.items()}
    for name in ("RoaringBitmap", "RoaringBitmap64"):
        found[name].update(re.findall(r"^    METHOD\(of, (\w+)", text, re.MULTILINE))
    attributes = re.search(r"matrix_attributes\[\] = \{(.*?)\n\};", text, re.DOTALL).group(1)
    found["BitMatrix"].update(re.findall(r'\{"(\w+)"', attributes))
    return found


def functions_in_stub(top):
    """What the file of the module's types has of each class, but for what Python calls itself."""
    found, name = {}, None
    for line in (top / "bindings/python/src/__init__.pyi").read_text().splitlines():
        if head := re.match(r"class (\w+)(?:\((_\w+)\))?", line):
            name, base = head.groups()
            found[name] = Counter(found[base]) if base else Counter()
        elif it := re.match(r"    def ([a-z]\w*)\(", line):
            found.setdefault(name, Counter())[it.group(1)] += 1
    return found


FUNCTIONS = {
    "bit-set": lambda top: functions_in_rust(top / "bindings/rust/bit-set", "BitSet"),
    "fixedbitset": lambda top: functions_in_rust(top / "bindings/rust/fixedbitset", "FixedBitSet"),
    "roaring": lambda top: functions_in_rust(top / "bindings/rust/roaring", "RoaringBitmap", {"treemap": "RoaringTreemap"}),
    "C++": functions_in_cpp,
    "Python": functions_in_python,
    "Python's types": functions_in_stub,
}


class List:
    """What tests/c_surface.txt says."""

    def __init__(self, path):
        self.text = path.read_text()
        lines = [line for line in self.text.splitlines() if line and not line.startswith("#")]
        rows = [line.split(": ", 1) for line in lines if not re.search(" (lacks|has) ", line)]
        # Each call with the names for C that stand for it; of one that has none the list says why.
        self.calls = {call: [] if names.startswith("none, ") else names.split(", ") for call, names in rows}

    def left_out(self, package, known):
        """The calls for C that a package is listed not to make: a star stands for any name that begins so."""
        lines = re.findall(rf"^{re.escape(package)} lacks ([\w*, ]+): .", self.text, re.MULTILINE)
        patterns = [pattern for line in lines for pattern in line.split(", ")]
        return {name for pattern in patterns for name in fnmatch.filter(known, pattern) or [pattern]}

    def functions(self, package):
        """The functions that a package is listed to have, by their types."""
        # What Python's type checkers read is to have what the module has.
        name = re.escape(package.partition("'")[0])
        lines = re.findall(rf"^{name} has (\w+)::\{{(.+)\}}$", self.text, re.MULTILINE)
        found = {}
        for kind, names in lines:
            found.setdefault(kind, Counter()).update(names.split(", "))
        return found


def compare_calls(top, listed):
    for name, crate, header, prefix, before in TYPES:
        calls = {before + call for call in rattle_calls(top / "crates" / crate / "src", name)}
        own = {it: names for it, names in listed.calls.items() if it.rpartition("::")[0] == before.removesuffix("::")}
        yield from (f"{call} has no line in tests/c_surface.txt" for call in calls - set(own))
        yield from (f"{crate} has no {call}, which tests/c_surface.txt lists" for call in set(own) - calls)
        exports = [(call, prefix + each) for call, names in own.items() for each in names]
        known = declared(top, header)
        yield from (f"{call}: {header} has no {export}" for call, export in exports if export not in known)


def compare_headers(top):
    for header, crate in HEADERS.items():
        known, made = declared(top, header), exported(top, crate)
        yield from (f"{header} has no {name}, which {crate} exports" for name in made - known)
        yield from (f"{header} has {name}, which {crate} does not export" for name in known - made)


def compare_made(package, made, without, known):
    """What a package makes of these calls for C, beside those that a line says it does not make."""
    yield from (f"{package} does not call {name}, and no line says why" for name in known - made - without)
    yield from (f"{package} calls {name}, of which a line says that it does not" for name in made & without)
    yield from (f"there is no {name}, which {package} is said to lack" for name in without - known)


def compare_functions(package, found, wanted):
    for name, functions in wanted.items():
        yield from (f"{package} has no {name}::{it}, which a line lists" for it in functions - found.get(name, Counter()))
        yield from (f"{package} has {name}::{it}, which no line lists" for it in found.get(name, Counter()) - functions)


def main():
    top = Path(sys.argv[1])
    listed, known = List(top / "tests/c_surface.txt"), declared(top, "bit_set.h")
    faults = [*compare_calls(top, listed), *compare_headers(top)]
    in_rust, all_known = made_in_bit_set_sys(top), known | declared(top, "bit_roaring.h")
    for package, made, among in [
        ("bit-set-sys", in_rust, all_known),
        ("bit-set", made_in_bit_set(top), in_rust & known),
        ("roaring", made_in_roaring(top), in_rust - known),
        ("Python", made_in_python(top), all_known),
    ]:
        faults += compare_made(package, made, listed.left_out(package, all_known), among)
    for package, functions in FUNCTIONS.items():
        faults += compare_functions(package, functions(top), listed.functions(package))
    print("\n".join(sorted(faults)), end="\n" if faults else "")
    return 1 if faults else 0


if __name__ == "__main__":
    sys.exit(main())
