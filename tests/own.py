"""Tries the tests themselves.

    own.py ROOT

The last line is 'N passed, M failed'.
"""

import contextlib
import io
import os
import shutil
import subprocess
import sys
import tempfile
import unittest
import unittest.mock
from pathlib import Path

import all_edits
import callers
from copies import crates_of, edits_of, folders_of_edits, texts_of
from edits import REFUSED, verdict_of

ROOT = Path(sys.argv[1])

# What the prover said of a body that gives capacity back, of a field that a record has not, and where it came to an end.
WRONG = """\
./proofs/packed/put/Answers.antt:27:28: error: `returns-clause-value`: as printed, the two types differ only where one has `c.shrunk.items`
  (expected), right after `has no`, and the other has `c.written.items` (found)
  both types are shown computed, as a hole's goal is
"""
NO_FIELD = """\
./proofs/packed/put/Answers.antt:21:61: error: `returns-clause-value`: `record {value : c.result ≡ c.items; len : ℕ}`
  has no field `values`
  its fields are `value`, `len`
"""
# A goal that fails at some numbers: of what was read, some says nothing of it.
FAILS = """\
./proofs/packed/put/Answers.antt:20:55: error: `returns-clause-most`: `omega`: the goal does not follow from what it read.
  All of that holds, and the goal fails, at `c.args.most` = 1. 1 of them has no atom in common with the goal
"""
# Steps other than a proof goes by, and an equation that `rw` comes to and that does not hold.
STEPS = """\
./proofs/packed/put/Proof.antt:54:10: error: `put_spec`: as printed, the two types first differ where one has `seq` (expected)
  `b` is not in scope here, so what is shown does not paste back as it stands
"""
UNEQUAL = """\
./proofs/packed/put/Answers.antt:5:13: error: `returns`: give a proof of that as the last argument, `rw L t`
  `rw` has no last argument, so what it leaves must be a path whose two ends are equal, and `c.found ≡ c.usage` is none
"""
LIMIT = """\
./proofs/packed/put/Answers.antt:21:61: error: `returns-clause-value`: the tactic
  ran out of its steps
"""
NOT_PROVED = "fn bit_blocks::packed::put: not proved"


class Verdicts(unittest.TestCase):
    def verdict(self, said, status=1):
        return verdict_of(status, said.splitlines(), "packed::put")[0]

    def test_of_a_wrong_value(self):
        self.assertEqual(self.verdict(WRONG + NOT_PROVED), REFUSED)
        self.assertEqual(self.verdict(FAILS + NOT_PROVED), REFUSED)
        self.assertEqual(self.verdict(STEPS + NOT_PROVED), REFUSED)
        self.assertEqual(self.verdict(UNEQUAL + NOT_PROVED), REFUSED)

    def test_of_a_name_that_is_gone(self):
        self.assertEqual(self.verdict(NO_FIELD + NOT_PROVED), "NO GOAL")
        self.assertEqual(self.verdict(NO_FIELD + WRONG + NOT_PROVED), REFUSED)

    def test_of_a_limit(self):
        self.assertEqual(self.verdict(LIMIT + NOT_PROVED), "LIMIT")

    def test_of_a_proof(self):
        self.assertEqual(self.verdict("fn bit_blocks::packed::put: proved", 0), "NOT REFUSED")

    def test_of_an_end_before_the_function(self):
        self.assertEqual(self.verdict(WRONG), "NO VERDICT")


class CallersVerdicts(unittest.TestCase):
    def verdict(self, *said):
        return callers.verdict_of(said, "keep")[0]

    def test_of_a_closure(self):
        closure, function = "fn uses::keep::fn::keep::retain: proved where its callers give what it asks", "fn uses::keep::keep: "
        self.assertEqual(self.verdict(closure, function + "proved"), callers.PROVED)
        self.assertEqual(self.verdict(closure, function + "not proved"), "NOT PROVED")
        self.assertEqual(self.verdict(closure), callers.NO_VERDICT)


class Records(unittest.TestCase):
    """Of a repository with one crate and two edits, of which each is given the verdict that a test says."""

    def setUp(self):
        room = tempfile.TemporaryDirectory(prefix="own-")
        self.addCleanup(room.cleanup)
        self.root = Path(room.name)
        self.source = self.root / "crates/one/src/lib.rt"
        for folder in ("crates/one/src", "tests/edits/one"):
            (self.root / folder).mkdir(parents=True)
        (self.root / "crates.txt").write_text("one:\n")
        (self.root / "tests/edits.txt").write_text("one/first: put, value\none/second: take, value\n")
        for name in ("first", "second"):
            (self.root / f"tests/edits/one/{name}.edit").write_text("file: src/lib.rt\nold: a\nnew: b\n")
        self.source.write_text("a")
        self.verdicts, self.tried = {}, []
        self.addCleanup(setattr, all_edits, "try_round", all_edits.try_round)
        all_edits.try_round = self.try_round

    def try_round(self, root, crates, crate, folder, edits):
        self.tried += sorted(it.stem for it in edits)
        return {it: (self.verdicts.get(it.stem, REFUSED), "", 1.0) for it in edits}

    def run_edits(self, *words):
        """The status, and what was tried."""
        self.tried = []
        with contextlib.redirect_stdout(io.StringIO()), unittest.mock.patch("sys.argv", ["", str(self.root), *words]):
            return all_edits.main(), self.tried

    def recorded(self):
        return [line.partition(",")[0] for line in (self.root / "tests/edits.csv").read_text().splitlines()[1:]]

    def test_goes_on_where_it_was(self):
        self.assertEqual(self.run_edits("one/first"), (0, ["first"]))
        self.assertEqual(self.run_edits(), (0, ["second"]))
        self.assertEqual(self.run_edits(), (0, []))
        self.assertEqual(self.run_edits("--anew"), (0, ["first", "second"]))

    def test_has_those_alone_that_are_refused(self):
        self.run_edits()
        self.verdicts = {"second": "NOT REFUSED"}
        self.assertEqual(self.run_edits("--anew"), (1, ["first", "second"]))
        self.assertEqual(self.recorded(), ["one/first"])

    def test_says_nothing_of_another_text(self):
        for change in (self.source, self.root / "tests/edits/one/first.edit", self.root / "crates/one/src/new.rt"):
            self.run_edits()
            with change.open("a") as file:
                file.write(" ")
            self.assertEqual(self.run_edits("--left", "one/first"), (1, []))
            self.assertIn("first", self.run_edits()[1])

    def test_says_nothing_of_another_function(self):
        self.run_edits()
        (self.root / "tests/edits.txt").write_text("one/first: take, value\none/second: take, value\n")
        self.assertEqual(self.run_edits()[1], ["first"])

    def test_has_no_row_of_a_text_that_changed_meanwhile(self):
        def change(*words):
            self.source.write_text("a ")
            return self.try_round(*words)

        all_edits.try_round = change
        self.assertEqual(self.run_edits("one/first"), (1, ["first"]))
        self.assertEqual(self.recorded(), [])


class Edits(unittest.TestCase):
    def test_all_are_on_the_list_and_can_be_made(self):
        for crate in crates_of(ROOT):
            edits = edits_of(ROOT, crate)
            self.assertEqual({*edits}, {it for folder in folders_of_edits(ROOT, crate) for it in folder.glob("*.edit")})
            for edit in edits:
                with self.subTest(edit=edit.stem):
                    self.assertTrue(texts_of(edit, ROOT / "crates" / crate))


# It stands for the toolchain: it proves all at once, and leaves a program that does nothing for each that the gate looks for.
RT = """\
#!/bin/sh
if [ "$1" = ci ]; then
    for program in bitset refusals roaring_refusals scaling; do
        mkdir -p "crates/$program/out"
        for made in "$program" "$program.by-rattle"; do
            echo '#!/bin/sh' > "crates/$program/out/$made"
            chmod +x "crates/$program/out/$made"
        done
    done
    sed -n 's/^\\([a-z_]*\\).*:.*/rt: \\1 proved/p' crates.txt
    echo '1 passed, 0 failed'
fi
"""


class Gate(unittest.TestCase):
    def run_gate(self, root):
        """The last lines of the gate in a copy in which each script but that of the counts passes, where no program is called
        valgrind."""
        for name in ("gate", "crates.txt"):
            shutil.copy(ROOT / name, root)
        shutil.copytree(ROOT / "tools", root / "tools")
        (root / "tests").mkdir()
        for script in (ROOT / "tests").glob("*.sh"):
            (root / "tests" / script.name).write_text("#!/bin/sh\necho '1 passed, 0 failed'\n")
            (root / "tests" / script.name).chmod(0o755)
        shutil.copy(ROOT / "tests/scaling.sh", root / "tests")
        path = root / "path"
        path.mkdir()
        for folder in os.environ["PATH"].split(":"):
            for program in Path(folder).glob("*"):
                if program.name not in ("valgrind", "rt", "sleep") and not (path / program.name).is_symlink():
                    (path / program.name).symlink_to(program)
        for name, text in (("rt", RT), ("sleep", "#!/bin/sh\n")):
            (path / name).write_text(text)
            (path / name).chmod(0o755)
        done = subprocess.run([root / "gate"], env={**os.environ, "PATH": str(path)}, capture_output=True, text=True)
        return done.stdout.splitlines()[-3:]

    def test_says_last_what_was_not_counted(self):
        with tempfile.TemporaryDirectory(prefix="own-") as room:
            lines = self.run_gate(Path(room))
        self.assertRegex(lines[0], "^gate: left out: .*valgrind")
        self.assertRegex(lines[-1], r"^\d+ passed, 0 failed$")


if __name__ == "__main__":
    done = unittest.main(argv=sys.argv[:1], exit=False, verbosity=0).result
    failed = len(done.failures) + len(done.errors)
    print(f"{max(done.testsRun - failed, 0)} passed, {failed} failed")
    sys.exit(failed > 0)
