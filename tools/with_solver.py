#!/usr/bin/env python3
"""Answers a search file with another solver, and has the answer shown by the program.

    with_solver.py [--lls PROGRAM] [--hints PROGRAM] [--seconds N] SOLVER SEARCH PROOF [WORD ..]

`lls cnf` makes the formula of SEARCH and of the WORDs, which are its options (`--period 3`), and SOLVER solves it. A model is made a
pattern, which `lls judge` judges; a proof is given its hints, and `lls check` checks it. As with `lls search`, what is printed is the
pattern (status 10), `no pattern` (20), where the checked proof stands in PROOF, or `undecided` (30). Else the status is 1 with a
sentence. The standard error says what each step took, and what is shown by what.

SOLVER is a name or a path that ends in one: cadical or kissat, or minisat or picosat, which write no proof, so that only their patterns are
shown. With --seconds it is ended after so many by the clock. LRAT of newer versions of CaDiCaL is taken as it is; else the proof gets its hints by `lls-hints`. The PROGRAMs are by default `lls` and
`lls-hints` in the folder above this file's.

Neither the solver nor this script has to be trusted, only what the program says of the pattern or the proof.
"""
import os
import shutil
import signal
import subprocess
import sys
import tempfile
import time

import ending
from pattern import BadInput, pattern_of

TOP = os.path.dirname(os.path.dirname(os.path.abspath(__file__)))
LLS = os.path.join(TOP, "lls")
HINTS = os.path.join(TOP, "lls-hints")


class NoAnswer(Exception):
    """What keeps a question from an answer."""


def say(text):
    print(f"with_solver.py: {text}", file=sys.stderr, flush=True)


class Step:
    """Says how long what is done in it takes."""

    def __init__(self, name):
        self.name = name

    def __enter__(self):
        self.start = time.monotonic()

    def __exit__(self, kind, *_):
        say(f"{self.name}{', which failed' if kind else ''}: {time.monotonic() - self.start:.1f} s")


def run(*words):
    """Returns the status of a command and what it prints; its standard error goes where this script's does."""
    try:
        done = subprocess.run(words, stdin=subprocess.DEVNULL, stdout=subprocess.PIPE, check=False)
    except OSError as fault:
        raise NoAnswer(f"{words[0]}: {fault.strerror}") from None
    return done.returncode, done.stdout.decode("utf-8", errors="replace")


class Solver:
    """A solver, which is ended with all that it began when its time is over, or this script ends."""

    def __init__(self, program, seconds):
        self.program, self.seconds = program, seconds

    def run(self, *words):
        """Returns its status and what it prints, where it ends in time; else the status of no answer."""
        try:
            begun = subprocess.Popen((self.program, *words), stdin=subprocess.DEVNULL, stdout=subprocess.PIPE, start_new_session=True)
        except OSError as fault:
            raise NoAnswer(f"{self.program}: {fault.strerror}") from None
        try:
            out, _ = begun.communicate(timeout=self.seconds)
        except subprocess.TimeoutExpired:
            return 30, ""
        finally:
            if begun.returncode is None:
                os.killpg(begun.pid, signal.SIGKILL)
                begun.wait()
        return begun.returncode, out.decode("utf-8", errors="replace")


def without_making(words):
    """Returns options without those that say how a formula is made."""
    making = ("--images", "--formula")
    return [word for word, last in zip(words, ["", *words]) if last not in making and word.partition("=")[0] not in making]


class Question:
    """A search file and the words for it, which the program is asked about."""

    def __init__(self, program, search, words):
        self.program, self.search = program, search
        self.flags = [word for word in ("--posed", "--bare") if word in words]
        self.words = [word for word in words if word not in self.flags]

    def words_for(self, command):
        """The words of a command: `judge` makes no formula, and takes no word on how one is made."""
        return without_making(self.words) if command == "judge" else self.words

    def ask(self, command, *files):
        """Runs a command of the program. Returns its status and what it prints."""
        with Step(f"`lls {command}`"):
            return run(self.program, *self.flags, command, self.search, *files, *self.words_for(command))


def cadical(solver, formula, proof):
    has_lrat = "--lrat" in run(solver.program, "--help")[1]
    options = ["-q", "--no-binary", *["--lrat"] * has_lrat]
    return (*solver.run(*options, formula, proof), "lrat" if has_lrat else "drat")


def kissat(solver, formula, proof):
    return (*solver.run("-q", "--no-binary", formula, proof), "drat")


def picosat(solver, formula, _):
    # Its versions in packages are made without traces.
    return (*solver.run(formula), None)


def minisat(solver, formula, proof):
    result = f"{proof}.result"
    status, out = solver.run("-verb=0", formula, result)
    if status == 10:
        # Its file has a line `SAT` and the values on the next one.
        with open(result, encoding="ascii") as file:
            out = "s SATISFIABLE\nv " + " ".join(file.read().split()[1:]) + "\n"
    return status, out, None


# Each returns the solver's status, what it prints, and the form of its proof: LRAT, DRAT in text, or none.
SOLVERS = {"cadical": cadical, "kissat": kissat, "minisat": minisat, "picosat": picosat}


def lrat_of(program, formula, proof, folder):
    """Returns the name of a file that has a DRAT proof in LRAT."""
    lrat = f"{folder}/lrat"
    with Step("`lls-hints`"):
        status, out = run(program, formula, proof, lrat)
    if status != 0:
        raise NoAnswer(f"`lls-hints` doesn't take the solver's proof: {out.strip() or f'status {status}'}")
    return lrat


def show_pattern(question, model, folder):
    """Prints the pattern of a model, once it is judged."""
    with open(question.search, encoding="utf-8", errors="replace") as file:
        search = file.read()
    try:
        text = "\n".join(pattern_of(search, model)) + "\n"
    except BadInput as fault:
        raise NoAnswer(f"the solver's model: {fault}") from None
    with open(f"{folder}/pattern", "w", encoding="ascii") as file:
        file.write(text)
    status, out = question.ask("judge", f"{folder}/pattern")
    if status != 0:
        raise NoAnswer(f"`lls judge` doesn't take the solver's pattern: {out.strip() or f'status {status}'}")
    print(text, end="")
    say("pattern: judged by `lls judge`")
    return 10


def show_absence(question, lrat, proof):
    """Says that there is no pattern, once the proof is checked, and keeps the proof."""
    status, out = question.ask("check", lrat)
    if status != 0:
        raise NoAnswer(f"`lls check` doesn't take the proof: {out.strip() or f'status {status}'}")
    shutil.copyfile(lrat, proof)
    print("no pattern")
    say(f"no pattern: shown by `lls check` of {proof}")
    return 20


def answer(question, hints, solver, seconds, proof, folder):
    """Returns the status of the answer that a solver gives and the program shows; a proof gets its hints by the program `hints`."""
    name = os.path.basename(solver)
    if name not in SOLVERS:
        raise NoAnswer(f"of the solver '{name}' the options aren't known here, only those of {', '.join(SOLVERS)}")
    program = shutil.which(solver)
    if program is None:
        raise NoAnswer(f"no solver '{solver}' is there")
    if not os.access(os.path.dirname(os.path.abspath(proof)), os.W_OK):
        raise NoAnswer(f"{proof}: nothing can be written there")
    status, text = question.ask("cnf")
    if status != 0:
        raise NoAnswer(f"`lls cnf` made no formula: status {status}")
    formula, made = f"{folder}/cnf", f"{folder}/proof"
    with open(formula, "w", encoding="ascii") as file:
        file.write(text)
    with Step(name):
        status, out, form = SOLVERS[name](Solver(program, seconds), formula, made)
    if status == 10:
        return show_pattern(question, out, folder)
    if status == 20 and form is None:
        raise NoAnswer(f"{name} says that there is no pattern, and writes no proof: nothing is shown")
    if status == 20:
        return show_absence(question, made if form == "lrat" else lrat_of(hints, formula, made, folder), proof)
    if status in (0, 30):
        print("undecided")
        say(f"undecided: {name} ended without an answer")
        return 30
    how = f"was ended by signal {-status}" if status < 0 else f"ended with status {status}"
    raise NoAnswer(f"{name} {how} and gave no answer")


def main():
    program, hints = ending.option("--lls", LLS), ending.option("--hints", HINTS)
    seconds = ending.option("--seconds")
    seconds = None if seconds is None else ending.number(seconds, "--seconds")
    solver, search, proof, *words = ending.words(__doc__, "SOLVER", "SEARCH", "PROOF", "WORD ..")
    try:
        with tempfile.TemporaryDirectory() as folder:
            return answer(Question(program, search, words), hints, solver, seconds, proof, folder)
    except NoAnswer as fault:
        return f"with_solver.py: {fault}"


if __name__ == "__main__":
    ending.run(main, __doc__)
