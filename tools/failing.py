#!/usr/bin/env python3
"""Runs the programs over real files while each of their calls to the system fails in turn, and says where more or less is left than may be.

    failing.py PROGRAM HINTS

PROGRAM is the built `lls`, and HINTS `lls-hints`. Refused are each allocation, opening, read and write, one a run; and in other runs each read and write takes at most 1, 2, 3 or 7 bytes.
tools/failing.c, which a C compiler makes into a library, stands between a program and the C library. Then the program ends

- with 5, `memory` behind its name, nothing on the standard output and all files as before, but the search file of `make`, which may stand whole;
- or, where memory lacks to record what the proof of a search comes from, as it ends where nothing fails, with the whole log in its place;
- or with 4 and the call that failed: the inputs are as before, an output stands for first bytes of its text, and is whole where the
  standard output failed, which has first bytes of its own;
- or as it ends where nothing fails, where the call that failed was of no matter, as a write to the standard error.

Prints how many runs there were, and ends with 1 where one ended otherwise.
"""
import os
import shutil
import subprocess
import sys
import tempfile

import ending

KINDS = ("ALLOCATION", "OPEN", "READ", "WRITE")
SHORT = (1, 2, 3, 7)
# By the kind of the call: what may be said of its failure.
SAID = {
    "ALLOCATION": {"memory", "outside: OpenFailed", "outside: CreateFailed"},
    "OPEN": {"outside: OpenFailed", "outside: CreateFailed"},
    "READ": {"outside: ReadFailed"},
    "WRITE": {"outside: WriteFailed", "outside: OutFailed"},
}
CELL = "1\n\n1\n"
BLOCK = "* *\n* *\n\n* *\n* *\n"
FOUR = "p cnf 2 4\n1 2 0\n1 -2 0\n-1 2 0\n-1 -2 0\n"
# The same behind two clauses of other variables, from which the search learns first: its log, and what is left of that when it is trimmed.
APART = "p cnf 4 6\n1 2 0\n1 -2 0\n3 4 0\n3 -4 0\n-3 4 0\n-3 -4 0\n"
LOG = "7 1 0 2 1 0\n8 3 0 4 3 0\n9 0 8 6 5 0\n"
TRIMMED = "7 3 0 4 3 0\n8 0 7 6 5 0\n"
# What the empty clause rests on behind the lemma 1.
HINTED = "5 1 0 2 1 0\n6 -2 0 5 4 0\n7 0 6 5 3 0\n"
KEPT = "kept 3 of 3\npassed over 0 deletions of reasons and 0 of unknown clauses\n"
# Words, the files f and p, the status and the two streams where nothing fails: worked out by hand. None stands for no such file.
ROWS = (
    ("check f p", CELL, "5 0 1 2 4 0\n", 0, "accepted\n", ""),
    ("check f p", CELL, "5 0 1 2 0\n", 1, "refused: NoConflict 1\n", ""),
    ("check f p", "1 2\n", "", 3, "", "lls: content: BadCell 1 3\n"),
    ("check f", None, None, 2, "", "lls: words: Operands 2 1\n"),
    ("search f q --budget 0", CELL, None, 20, "no pattern\n", ""),
    ("search f q --crew 2", CELL, None, 20, "no pattern\n", ""),
    ("search f q --period 1 --live 0:1-", BLOCK, None, 10, "1 1\n1 1\n\n1 1\n1 1\n", ""),
    ("sat f q --budget 10 --keep all", APART, None, 20, "s UNSATISFIABLE\n", ""),
    ("sat f q --budget 0", FOUR, None, 30, "s UNKNOWN\n", ""),
    ("judge f p", "1\n", "1\n", 0, "meets\n", ""),
    ("cnf f", "1\n", None, 0, "p cnf 1 1\n1 0\n", ""),
    ("lrat f p", "p cnf 1 2\n1 0\n-1 0\n", "3 0 1 2 0\n", 0, "accepted\n", ""),
    ("trim f p q", APART, LOG, 0, "kept 2 of 3\n", ""),
    ("trim f p q", FOUR, "5 3 0 0\n6 1 0 5 1 2 0\n7 0 6 3 4 0\n", 1, "refused: RatStep 1\n", ""),
    ("rule B3/S23", None, None, 0, "B3/S23\n", ""),
    ("make 0 1 s q", None, None, 10, "size 1\nknown 1\nlive 0 0\nvariables 2\nclauses 4\nanswer pattern\n", ""),
)
HINT_ROWS = (
    ("f p q", FOUR, "1 0\n0\n", 0, KEPT, ""),
    ("f p q", FOUR, "3 0\n", 1, "refused: NoEmpty\n", ""),
    ("f p q", FOUR, "1 x 0\n", 3, "", "lls-hints: content: BadWord 1 3\n"),
)
# What the file q has at the end, by the words and the formula.
WRITTEN = {
    ("sat f q --budget 10 --keep all", APART): LOG,
    ("trim f p q", APART): TRIMMED,
    HINT_ROWS[0][:3]: HINTED,
}
# What has to be met, or nothing was tried.
MET = {("ALLOCATION", 5), ("OPEN", 4), ("READ", 4), ("WRITE", 4)}


class Run:
    """How a run ended: its status, what is on its two streams, and the files."""

    def __init__(self, status, out, err, files):
        self.status, self.out, self.err, self.files = status, out, err, files

    def __repr__(self):
        return f"status {self.status}, output {self.out!r}, error {self.err!r}, files {self.files}"


class Room:
    """A folder in which the program runs, with the library that has its calls fail."""

    def __init__(self, program, folder):
        self.program = os.path.abspath(program)
        self.name = os.path.basename(program).replace("_", "-")
        self.library, self.counts, self.files = f"{folder}/failing.so", f"{folder}/counts", f"{folder}/files"
        source = os.path.join(os.path.dirname(os.path.abspath(__file__)), "failing.c")
        compiler = next(filter(None, map(shutil.which, ("cc", "gcc", "clang"))), None)
        if compiler is None:
            sys.exit("failing.py: there is no C compiler: apt install gcc")
        subprocess.run([compiler, "-O1", "-shared", "-fPIC", "-o", self.library, source], check=True)

    def run(self, row, **failing):
        """Runs a row with these calls failing, and returns how it ended and how many calls of each kind there were."""
        shutil.rmtree(self.files, ignore_errors=True)
        os.mkdir(self.files)
        for name, text in zip("fp", row[1:3]):
            if text is not None:
                with open(f"{self.files}/{name}", "w", encoding="ascii") as file:
                    file.write(text)
        told = {name: str(number) for name, number in failing.items()}
        environment = {**os.environ, **told, "LD_PRELOAD": self.library, "COUNTS": self.counts}
        done = subprocess.run([self.program, *row[0].split()], capture_output=True, cwd=self.files, env=environment, check=False, timeout=60)
        with open(self.counts, encoding="ascii") as file:
            counts = dict(zip(KINDS, map(int, file.read().split())))
        return Run(done.returncode, done.stdout.decode(), done.stderr.decode(), self.left()), counts

    def left(self):
        files = {}
        for name in sorted(os.listdir(self.files)):
            with open(f"{self.files}/{name}", encoding="ascii") as file:
                files[name] = file.read()
        return files


def inputs_of(row):
    return {name: text for name, text in zip("fp", row[1:3]) if text is not None}


def is_same(run, whole, may_say_less=False):
    """Whether a run ended as where nothing fails, but perhaps for a part of what it says on the standard error."""
    said = whole.err.startswith(run.err) if may_say_less else run.err == whole.err
    return said and (run.status, run.out, run.files) == (whole.status, whole.out, whole.files)


def lacks_memory(row, run, whole):
    ahead = {"s": whole.files["s"]} if "s" in whole.files and "s" in run.files else {}
    return run.err.endswith(": memory\n") and (run.out, run.files) == ("", {**inputs_of(row), **ahead})


def fails_outside(row, run, whole):
    """Whether what is left behind a failure of the outside are first bytes, and after one of the standard output whole files."""
    if not all(whole.files.get(name, "").startswith(text) for name, text in run.files.items()):
        return False
    if not inputs_of(row).items() <= run.files.items():
        return False
    if run.err.endswith(": outside: OutFailed\n"):
        return run.files == whole.files and whole.out.startswith(run.out)
    return run.out == ""


def is_right(name, row, kind, run, whole):
    """Whether a run of the program of that name may end so where a call of this kind failed."""
    if is_same(run, whole, kind == "WRITE"):
        return True
    if run.err not in {f"{name}: {said}\n" for said in SAID[kind]}:
        return False
    return lacks_memory(row, run, whole) if run.status == 5 else run.status == 4 and fails_outside(row, run, whole)


def tried(room, row):
    """Tries a row with each call failing. Returns how many runs ended with each status, and those that ended wrongly."""
    ended, wrong = {}, []
    whole, counts = room.run(row)
    left = WRITTEN.get(row[:2], WRITTEN.get(row[:3]))
    if (whole.status, whole.out, whole.err) != row[3:] or left is not None and whole.files.get("q") != left:
        wrong.append(f"{row[0]}: {whole}")
    for kind in KINDS:
        for number in range(1, counts[kind] + 1):
            run, _ = room.run(row, **{f"FAIL_{kind}": number})
            ended[kind, run.status] = ended.get((kind, run.status), 0) + 1
            if not is_right(room.name, row, kind, run, whole):
                wrong.append(f"{row[0]} with {kind.lower()} {number} failing: {run}")
    for most in SHORT:
        run, _ = room.run(row, SHORT=most)
        ended["SHORT", run.status] = ended.get(("SHORT", run.status), 0) + 1
        if not is_same(run, whole):
            wrong.append(f"{row[0]} with {most} bytes a call: {run}")
    return ended, wrong


def main():
    program, hints = ending.words(__doc__, "PROGRAM", "HINTS")
    ended, wrong, is_met = {}, [], True
    for path, rows, met in ((program, ROWS, MET | {("ALLOCATION", 20)}), (hints, HINT_ROWS, MET)):
        own = {}
        with tempfile.TemporaryDirectory() as folder:
            room = Room(path, folder)
            for row in rows:
                here, faults = tried(room, row)
                wrong += faults
                for key, count in here.items():
                    own[key] = own.get(key, 0) + count
        is_met = is_met and met <= own.keys()
        for key, count in own.items():
            ended[key] = ended.get(key, 0) + count
    print(f"{sum(ended.values())} runs:", ", ".join(f"{count} {kind.lower()} ended with {status}" for (kind, status), count in sorted(ended.items())))
    for line in wrong:
        print(f"failing.py: {line}", file=sys.stderr)
    return 0 if is_met and not wrong else 1


if __name__ == "__main__":
    ending.run(main, __doc__)
