"""Copies of crates in which something is tried, and what the prover says there.

A copy has the files of a crate as they are in the checkout. The libraries below it are those that the checkout has built.
"""

import os
import re
import shutil
import signal
import subprocess
from pathlib import Path

PARTS = ("src", "specs", "proofs")


def end_by(number, _):
    """Ends the program with what it has begun, as an error would."""
    raise SystemExit(128 + number)


for ending in (signal.SIGHUP, signal.SIGQUIT, signal.SIGTERM):
    if signal.getsignal(ending) == signal.SIG_DFL:
        signal.signal(ending, end_by)


def lines_of(root):
    """What the line of each crate in crates.txt names, by the names of the crates."""
    named = {}
    for line in (root / "crates.txt").read_text().splitlines():
        name, _, words = line.partition("#")[0].partition(":")
        if name.strip():
            named[name.split()[0]] = words.split()
    return named


def words_of(root, name):
    """The crates and the libraries of the toolchain that a crate names."""
    return lines_of(root)[name]


def crates_of(root):
    """The crates by name, lowest first, each with the crates of the repository that it names."""
    named = lines_of(root)
    below, found = {name: [it for it in words if it in named] for name, words in named.items()}, {}

    def visit(name):
        if name not in found:
            for it in below[name]:
                visit(it)
            found[name] = below[name]

    for name in below:
        visit(name)
    return found


def all_below(crates, name):
    """The crates below this one, lowest first."""
    found = []
    for it in crates[name]:
        found += [other for other in [*all_below(crates, it), it] if other not in found]
    return found


def copy_parts(folder, copy):
    """Copies the sources and proofs of a crate from its folder, over what is there."""
    for part in PARTS:
        shutil.rmtree(copy / part, ignore_errors=True)
        if (folder / part).is_dir():
            shutil.copytree(folder / part, copy / part)


def check_words(root, crates, name, *flags):
    """The command that checks a crate, in a copy of its folder, over the libraries below it as the checkout has them built."""
    said = subprocess.run(["rt", "doc"], check=True, capture_output=True, text=True).stdout
    kit = Path(said.splitlines()[0]).parent
    words = ["rattle", "check", "--crate-name", name, "--extern", f"std={kit}/rlibs/std.rlib"]
    for it in words_of(root, name):
        built = kit / "rlibs" if it not in crates else root / "crates" / it / "out" / "rlib"
        words += ["--extern", f"{it}={built}/{it}.rlib"]
    for it in all_below(crates, name):
        built = root / "crates" / it / "out" / "rlib"
        if not (built / f"{it}.rlib").is_dir():
            raise SystemExit(f"{it}, below {name}, is not built here: run `rt ci`, or `rt lib` in crates/{it}")
        words += ["-L", f"dependency={built}"]
    if re.search(rf"^{name} +staticlib\b", (root / "crates.txt").read_text(), re.M):
        words += ["--crate-type", "staticlib", "--links", f"{name}="]
    words += ["-L", f"dependency={kit}/rlibs", "--antt-project", f"{kit}/rattle/logic/antt-project.json"]
    words += ["--logic-built", f"{kit}/logic_built", *flags]
    return [*words, "src/main.rt" if (root / "crates" / name / "src" / "main.rt").exists() else "src/lib.rt"]


def used_by(group):
    """The processor seconds of the processes of a session, and of those that they have waited for."""
    ticks = 0
    for it in filter(str.isdigit, os.listdir("/proc")):
        try:
            words = Path(f"/proc/{it}/stat").read_text().rpartition(")")[2].split()
        except OSError:
            continue
        if int(words[3]) == group:
            ticks += sum(map(int, words[11:15]))
    return ticks / os.sysconf("SC_CLK_TCK")


def run(folder, *words, at_line=None):
    """Runs a command there, and returns its status, what it said and its processor seconds. Each line is handed on as it comes.
    Where the program ends meanwhile, the command does too."""
    how = {"stdin": subprocess.DEVNULL, "stdout": subprocess.PIPE, "stderr": subprocess.STDOUT, "text": True, "errors": "replace"}
    ran = subprocess.Popen(words, cwd=folder, start_new_session=True, **how)
    said = []
    try:
        for line in ran.stdout:
            said.append(line.rstrip("\n"))
            if at_line:
                at_line(said[-1], used_by(ran.pid))
        _, status, usage = os.wait4(ran.pid, 0)
    except BaseException:
        os.killpg(ran.pid, signal.SIGKILL)
        raise
    ran.returncode = os.waitstatus_to_exitcode(status)
    return ran.returncode, said, usage.ru_utime + usage.ru_stime


def edits_of(root, name):
    """The edits of a crate, each with its function and the clause that is not met, as tests/edits.txt lists them."""
    found = {}
    for line in (root / "tests" / "edits.txt").read_text().splitlines():
        row = re.fullmatch(rf"{name}/(\w+): ([\w:]+), (.+)", line)
        if row:
            files = [folder / f"{row[1]}.edit" for folder in folders_of_edits(root, name)]
            found[next((it for it in files if it.exists()), files[-1])] = (row[2], row[3])
    return found


def folders_of_edits(root, name):
    """Where the edits of a crate are: those that `rt ci` tries, and those that it does not."""
    return root / "crates" / name / "must-fail", root / "tests" / "edits" / name


def gate_edits_of(root, name):
    """Those of the edits that tests/edits.sh tries for the gate."""
    lines = (root / "tests" / "gate_edits.txt").read_text().splitlines()
    return {edit: it for edit, it in edits_of(root, name).items() if f"{name}/{edit.stem}" in lines}


def texts_of(edit, folder):
    """The texts that an edit makes of files of the crate in this folder, by their paths."""
    texts, path, old = {}, None, None
    for line in edit.read_text().splitlines():
        key, _, text = line.partition(": ")
        if key == "file":
            path = text.strip()
        elif key == "old":
            old = text
        elif key.rstrip(":") == "new":
            before = texts.get(path) or (folder / path).read_text()
            if before.count(old) != 1:
                raise ValueError(f"its old text is in {path} {before.count(old)} times")
            texts[path] = before.replace(old, text)
    return texts


def write_edit(edit, folder):
    """Changes the crate in this folder by the edit."""
    for path, text in texts_of(edit, folder).items():
        (folder / path).write_text(text)
