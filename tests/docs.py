"""Compares what the documents of this repository quote with its sources.

    docs.py ROOT

- Each paragraph of a ```rust block of README.md, of docs/PROVING.md and of a crate's CALLING.md is in one source, line for
  line but for the indentation, and what it imports is imported there. So a whole block is code that the gate proves.
- A ```antt block begins with the name of a file, and the rest of it is in a file of that name. Where a document calls the
  caller's crate `mine`, it is the crate here that has the file.
- Each clause that a CALLING.md quotes below a line 'fn ..' is a clause of that function.
- A CALLING.md with a heading 'All calls' has each public function of its crate there, but the laws. One with `_general` at the
  end of its name goes by the name before that.
- Each example of a doc comment is in a test, with a macro or with `expect` and `expect_eq`. Each public function of the
  crates in `WITH_EXAMPLES`, but the laws, has one.
- docs/SPEED.md has the tables that bench/tables makes of the figures in docs/speed.
- Each public function of `bit_words` and `bit_set` but the laws is called by `diff_calls`, or diff/README.md names it.
- Each link of a document leads to a file, and to a heading where it names one.
- Each file of definitions or of lemmas that a README.md or a CALLING.md of a crate names is in the crate that it is said to
  be of, or else in that crate or in one that the same sentence names.
- Each name in docs/PROVING.md, of a function, a law, a lemma or a clause, is a word of some source or proof, or of a caller in
  tests/callers. Each in the README.md of `uses` is too, or it is a folder there.

It prints a line for each quote that does not agree, and at the end 'N passed, M failed'.
"""

import re
import subprocess
import sys
from pathlib import Path

# The crates of which each public function has an example.
WITH_EXAMPLES = ["bit_set_run"]

CLAUSE = re.compile(r"^\s+(requires|ensures)\b\s*([\w ]*?)\s*[:{]")


def lines_of(text):
    """The lines without their indentation."""
    return [line.strip() for line in text.splitlines()]


def as_in_documents(line):
    """The line of a test, with the macros in place of `expect`, `expect_eq` and what they take to end a test."""
    line = re.sub(r"^expect\(&?rt, (.*)\);$", r"assert!(\1);", line)
    line = re.sub(r"^expect_eq\(&?rt, &(.*), &(.*)\);$", r"assert_eq!(\1, \2);", line)
    return line.replace("!(rt; ", "!(")


def in_one_line(lines):
    """The lines, of which a macro for tests that is laid out over several is one again."""
    found, call = [], []
    for line in lines:
        if call or line.endswith("!(rt;"):
            call.append(line)
        else:
            found.append(line)
        if call and line == ");":
            found.append(" ".join(call[:-1]) + ");")
            call = []
    return found


def is_in(wanted, lines):
    """Whether the wanted lines are among these, one after another."""
    first = wanted[0]
    return any(
        line == first and lines[start : start + len(wanted)] == wanted for start, line in enumerate(lines)
    )


def paragraphs(lines):
    """The runs of lines between empty ones."""
    found, run = [], []
    for line in [*lines, ""]:
        if line:
            run.append(line)
        elif run:
            found.append(run)
            run = []
    return found


def fences(lines, kind):
    """The blocks of a kind that a document quotes, each as the number of its first line and its lines."""
    found, start, inside = [], None, False
    for number, line in enumerate(lines, 1):
        if line.startswith("```"):
            if inside:
                if start is not None:
                    found.append((start, lines[start - 1 : number - 1]))
                start, inside = None, False
            else:
                inside = True
                start = number + 1 if line == f"```{kind}" else None
    return found


class Check:
    """What was compared so far."""

    def __init__(self):
        self.passed = 0
        self.failed = 0

    def expect(self, agrees, where, what):
        if agrees:
            self.passed += 1
        else:
            self.failed += 1
            print(f"FAILED: {where}: {what}")


def imports(lines):
    """The names that lines import, each with the path that it is imported from."""
    found = set()
    for line in lines:
        whole = re.match(r"(?:ghost )?use ([\w.:]+?)(?:[.:]+\{(.*)\})?;?$", line)
        if whole:
            path, names = whole.groups()
            if names is None:
                path, names = re.fullmatch(r"(.*?)[.:]*(\w+)", path).groups()
            found.update((path, name.strip()) for name in names.split(","))
    return found


def is_example_of(block, source):
    """Whether a source has the code of an example, and imports what the example does."""
    names = imports(source)
    for part in paragraphs(block):
        wanted = imports(part)
        if wanted:
            if not wanted <= names:
                return False
        elif not is_in(part, source):
            return False
    return True


def has_proof(path, lines, crate):
    """Whether a file of a crate has these lines, in which the crate may be called `mine`."""
    file = lines_of(path.read_text(encoding="utf-8"))
    return all(is_in(part, file) for part in paragraphs(line.replace("Rattle.mine.", f"Rattle.{crate}.") for line in lines))


def check_examples(check, root, document, sources):
    """The examples of a document."""
    lines = lines_of(document.read_text(encoding="utf-8"))
    for start, block in fences(lines, "rust"):
        agrees = any(is_example_of(block, source) for source in sources)
        check.expect(agrees, f"{document.relative_to(root)}:{start}", "no source has this example")
    for start, block in fences(lines, "antt"):
        name = block[0].removeprefix("-- ")
        agrees = any(has_proof(path, block[1:], path.relative_to(root).parts[1]) for path in root.glob(f"crates/*/{name}"))
        check.expect(agrees, f"{document.relative_to(root)}:{start}", f"no {name} has this")


def plain(text):
    """A clause with one space between two words, and without the point in time at which `self` is meant."""
    text = " ".join(text.split())
    return re.sub(r"\bself\.(old|now|entry)\b", "self", text)


def clauses_of(source):
    """The clauses of a source: for each function's name, those that it has."""
    found, name = {}, ""
    text = source.read_text(encoding="utf-8")
    for match in re.finditer(r"\bfn (\w+)|^\s+(requires|ensures)\b\s*(\w*)\s*\{", text, re.M):
        if match.group(1):
            name = match.group(1)
            continue
        end, depth = match.end(), 1
        while depth:
            depth += {"{": 1, "}": -1}.get(text[end], 0)
            end += 1
        clause = (match.group(2), match.group(3), plain(text[match.end() : end - 1]))
        found.setdefault(name, set()).add(clause)
    return found


def check_clauses(check, root, document, clauses):
    """The clauses that a document quotes."""
    name = ""
    for number, line in enumerate(document.read_text(encoding="utf-8").splitlines(), 1):
        head = re.match(r"^(?:fn |<)(?:[\w<>,' &]+::)*(\w+)\(", line) or re.match(r"^(?:fn |<).*?(\w+)[(<]", line)
        if head:
            name = head.group(1)
        quoted = re.match(r"^  (requires|ensures) ?(\w*): (.*)$", line)
        if not quoted:
            continue
        text = re.sub(r"\bS'", "self.new", quoted.group(3))
        text = re.sub(r"\bS\b", "self", text)
        clause = (quoted.group(1), quoted.group(2), plain(text))
        check.expect(clause in clauses.get(name, set()), f"{document.relative_to(root)}:{number}", f"{name} has no such clause")


def check_comments(check, root, source, tests):
    """The examples of the doc comments of a source."""
    comments = [line[3:].strip() if line.startswith("///") else "" for line in lines_of(source.read_text(encoding="utf-8"))]
    for start, block in fences(comments, ""):
        agrees = any(all(is_in(part, test) for part in paragraphs(block)) for test in tests)
        check.expect(agrees, f"{source.relative_to(root)}:{start}", "no test has this example")


def check_each_has_example(check, root, source):
    """The public functions of a source: whether the doc comment of each has an example."""
    comment = []
    for number, line in enumerate(lines_of(source.read_text(encoding="utf-8")), 1):
        if function := re.match(r"pub fn (\w+)", line):
            check.expect("/// ```" in comment, f"{source.relative_to(root)}:{number}", f"{function[1]} has no example")
        comment = [*comment, line] if line.startswith(("///", "#[")) else []


def anchors(document):
    """What links to the headings of a document are spelled like."""
    heads = re.findall(r"^#+ (.*)$", document.read_text(encoding="utf-8"), re.M)
    return {re.sub(r"[^\w -]", "", head.lower()).replace(" ", "-") for head in heads}


def check_links(check, root, document):
    """The links of a document that stay in the repository."""
    for number, line in enumerate(document.read_text(encoding="utf-8").splitlines(), 1):
        for path, anchor in re.findall(r"\]\((?!https?:)([^)#\s]*)#?([^)\s]*)\)", line):
            target = document.parent / path if path else document
            agrees = target.exists() and (not anchor or anchor in anchors(target))
            check.expect(agrees, f"{document.relative_to(root)}:{number}", f"no {path}#{anchor}".rstrip("#"))


def check_tables(check, root):
    """The tables of docs/SPEED.md."""
    made = subprocess.run(
        [sys.executable, root / "bench/tables", root / "docs/speed"], check=True, capture_output=True, text=True
    )
    lines = lines_of((root / "docs/SPEED.md").read_text(encoding="utf-8"))
    for table in paragraphs(lines_of(made.stdout)):
        check.expect(is_in(table, lines), "docs/SPEED.md", f"it has no table {table[0]}")


def public_functions(root, crates=("bit_blocks", "bit_words", "bit_set", "bit_matrix")):
    """The names of the functions that a program can call, those of a type as 'Type::name'."""
    exported = re.findall(r"^pub use (?:crate|bit_blocks)::([^;]*);", (root / "crates/bit_words/src/bit_vec.rt").read_text(), re.M)
    exported = set(re.findall(r"\w+", " ".join(exported)))
    names = set()
    for crate in crates:
        for source in sorted((root / "crates" / crate / "src").rglob("*.rt")):
            kind = None
            for line in [] if "laws" in (source.stem, source.parent.name) else source.read_text(encoding="utf-8").splitlines():
                if head := re.match(r"impl(?:<.*?>)? (?:.* for )?(\w+)", line):
                    kind = head[1]
                elif line.startswith("}"):
                    kind = None
                function = re.match(r" *pub fn (\w+)", line)
                if function and kind:
                    names.add(f"{kind}::{function[1]}")
                elif function and function[1] in exported:
                    names.add(function[1])
    return names


def check_calls(check, root):
    """The public functions that random calls are made of. One name stands for those of all types."""
    calls = "".join(source.read_text(encoding="utf-8") for source in root.glob("crates/diff_calls/src/*.rt"))
    called = set(re.findall(r"(?<!fn )\b(\w+)(?:::<[^>]*>)?\(", calls))
    named = (root / "diff/README.md").read_text(encoding="utf-8")
    for name in sorted(public_functions(root)):
        is_known = name.rpartition(":")[2] in called or f"`{name}`" in named
        check.expect(is_known, "diff/README.md", f"no script calls {name}")


def check_all_calls(check, root, document):
    """The list of all calls of a CALLING.md, where it has one."""
    listed = re.search(r"^## All calls\n(.*?)(?=^## |\Z)", document.read_text(encoding="utf-8"), re.M | re.S)
    if not listed:
        return
    named = set(re.findall(r"(\w+)\(", listed[1]))
    for name in sorted(public_functions(root, [document.parent.name])):
        is_known = name.rpartition(":")[2].removesuffix("_general") in named
        check.expect(is_known, document.relative_to(root), f"'All calls' lacks {name}")


def check_names(check, root, document):
    """The names that a document has by themselves between backticks."""
    callers = root / "tests" / "callers"
    words = {it.name for it in [*callers.iterdir(), *(root / "crates").iterdir()]}
    kinds = ("crates/*/src/**/*.rt", "crates/*/proofs/**/*.antt", "crates/*/specs/**/*.antt", "tests/callers/*/*.txt")
    for source in [path for kind in kinds for path in root.glob(kind)]:
        words.update(re.findall(r"[\w-]+", source.read_text(encoding="utf-8")))
    parts = f" {' '.join(words)} "
    for number, line in enumerate(document.read_text(encoding="utf-8").splitlines(), 1):
        for name in re.findall(r"`(?:laws::)?([A-Za-z_][\w-]*)`", line):
            is_known = name in words or f"-{name} " in parts or f" {name}-" in parts
            check.expect(is_known, f"{document.relative_to(root)}:{number}", f"nothing is named {name}")


def named_files(line):
    """The files of definitions or of lemmas that a sentence names, each as its folder, where that is said, its name and where
    in the sentence the name ends."""
    for file in re.finditer(r"`(?:(specs|proofs)/)?([A-Z]\w*)\.antt`", line):
        yield file[1], file[2], file.end()
    for lemmas in re.finditer(r"`([A-Z]\w*Lemmas)(?:::\w+)?`", line):
        yield "proofs", lemmas[1], lemmas.end()
    # A list of names, of which the last is followed by what it is of.
    for names in re.finditer(r"(?:`[A-Z]\w*`(?:, | and | or )?)+(?= of `specs/`)", line):
        for name in re.finditer(r"`(\w+)`", names[0]):
            yield "specs", name[1], names.start() + name.end()


def check_files(check, root, document):
    """The files of definitions or of lemmas that a document of a crate names."""
    in_table = False
    for number, line in enumerate(document.read_text(encoding="utf-8").splitlines(), 1):
        in_table = line.startswith("|") and (in_table or line.startswith("| File of `specs/` |"))
        for sentence in re.split(r"(?<=\.) ", line):
            found = list(named_files(sentence))
            if in_table:
                names = re.finditer(r"`([A-Z]\w*)`", re.match(r"\|[^|]*", line)[0])
                found = [("specs", name[1], name.end()) for name in names]
            here = [document.parent.name, *re.findall(r"`(\w+)`|\]\(\.\./(\w+)/", sentence)]
            here = [here[0], *(one or other for one, other in here[1:])]
            for folder, name, end in found:
                of = re.match(r" of `(\w+)`", sentence[end:])
                crates = [of[1]] if of else here
                is_there = any(any(root.glob(f"crates/{crate}/{folder or '*'}/**/{name}.antt")) for crate in crates)
                check.expect(is_there, f"{document.relative_to(root)}:{number}", f"no {name}.antt is in {crates[0]}")


def main():
    root = Path(sys.argv[1])
    check = Check()
    sources = {path: lines_of(path.read_text(encoding="utf-8")) for path in sorted(root.glob("crates/*/src/**/*.rt"))}
    # A test passes `rt`, by which it prints, to `assert!`; no example does.
    tests = [[as_in_documents(line) for line in in_one_line(lines)] for lines in sources.values() if "#[test]" in lines]
    documents = [root / "README.md", root / "docs/PROVING.md", *sorted(root.glob("crates/*/CALLING.md"))]
    for document in documents:
        check_examples(check, root, document, [*sources.values(), *tests])
        clauses = {}
        for source in sorted(document.parent.glob("src/**/*.rt")):
            for name, found in clauses_of(source).items():
                clauses.setdefault(name, set()).update(found)
        check_clauses(check, root, document, clauses)
        check_all_calls(check, root, document)
    for document in [*sorted(root.glob("*.md")), *sorted(root.glob("*/*.md")), *sorted(root.glob("crates/*/*.md"))]:
        check_links(check, root, document)
        if document.parent.parent == root / "crates" and document.name in ("README.md", "CALLING.md"):
            check_files(check, root, document)
    for source in sources:
        check_comments(check, root, source, tests)
        if source.relative_to(root).parts[1] in WITH_EXAMPLES and source.stem != "laws":
            check_each_has_example(check, root, source)
    check_names(check, root, root / "docs/PROVING.md")
    check_names(check, root, root / "crates/uses/README.md")
    check_tables(check, root)
    check_calls(check, root)
    print(f"{check.passed} passed, {check.failed} failed")
    return 1 if check.failed else 0


sys.exit(main())
