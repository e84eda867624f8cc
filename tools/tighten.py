#!/usr/bin/env python3
"""Finds the fewest or the most live cells of a search file's patterns by another solver, and says how long that took.

    tighten.py [--most] [--lls PROGRAM] SOLVER SEARCH [WORD ..]

It does what `lls least` does, or `lls most`: it asks for a pattern, then for one with fewer live cells in generation 0, or with more, and so on until there is none.
Each time `lls cnf` makes the formula of SEARCH, of the WORDs, which are its options (`--period 3`), and of the bound, and SOLVER (cadical,
minisat or picosat) solves it anew. Prints `least N` or `most N` with status 10, or `no pattern` with status 20, and on the standard error the processor
seconds of all solving and of all making of formulas. It shows nothing: its proofs are thrown away. It is there to be measured beside the program.
"""
import itertools
import os
import sys
import tempfile

import ending
from pattern import BadInput, pattern_of
from spread import OPTIONS, Stop, options_in
from with_solver import LLS, SOLVERS, NoAnswer, Solver, run


def bounded(words, ends):
    """The words with a bound on generation 0 behind those that they have."""
    bound = f"0:{ends}"
    if "--live" in words:
        at = words.index("--live") + 1
        return [*words[:at], f"{words[at]},{bound}", *words[at + 1 :]]
    return [*words, "--live", bound]


def live_cells(rows):
    """How many cells of generation 0 a pattern has alive."""
    return sum(row.count("1") for row in itertools.takewhile(bool, rows))


def spent():
    """The processor time of all programs that ended, in seconds."""
    times = os.times()
    return times.children_user + times.children_system


class Looks:
    """A row of looks at one search file, and what they took."""

    def __init__(self, program, solver, search, folder):
        self.program, self.search, self.folder = program, search, folder
        self.solver, self.solve = Solver(solver, None), SOLVERS[os.path.basename(solver)]
        self.making = self.solving = 0

    def cells(self):
        """How many cells a generation has."""
        with open(self.search, encoding="utf-8") as file:
            rows = [line.split() for line in file if not line.startswith("#")]
        return sum(map(len, itertools.takewhile(bool, rows)))

    def look(self, words):
        """Returns how many live cells of generation 0 the solver's pattern has, or None where it finds none."""
        formula, begin = f"{self.folder}/cnf", spent()
        status, text = run(self.program, "cnf", self.search, *words)
        if status != 0:
            raise NoAnswer(f"`lls cnf` ended with {status}")
        with open(formula, "w", encoding="ascii") as file:
            file.write(text)
        made = spent()
        status, model, _ = self.solve(self.solver, formula, f"{self.folder}/proof")
        self.making += made - begin
        self.solving += spent() - made
        if status == 20:
            return None
        if status != 10:
            raise NoAnswer(f"the solver ended with {status}")
        with open(self.search, encoding="utf-8") as file:
            return live_cells(pattern_of(file.read(), model))


def utmost(looks, words, wants_most):
    """Returns the fewest live cells, or the most, or None where there is no pattern."""
    found, count = None, looks.look(words)
    while count is not None:
        found = count
        if wants_most:
            count = looks.look(bounded(words, f"{count + 1}-")) if count < looks.cells() else None
        else:
            count = looks.look(bounded(words, f"-{count - 1}")) if count else None
    return found


def said_by(search):
    """Returns the options that a search file has on its line `#!`, which no look may miss."""
    try:
        with open(search, encoding="utf-8", errors="replace") as file:
            return [word for option in options_in(file.read()) for word in option.split("=", 1)]
    except Stop as fault:
        sys.exit(f"tighten.py: {fault}")


def main():
    wants_most = sys.argv[1:2] == ["--most"]
    if wants_most:
        del sys.argv[1]
    program = ending.option("--lls", LLS)
    words = sys.argv[1:]
    if len(words) < 2 or os.path.basename(words[0]) not in SOLVERS:
        sys.exit(f"{__doc__}\ntighten.py: a solver ({', '.join(SOLVERS)}) and a search file are needed")
    solver, search, *options = words
    if not any(word.partition("=")[0].removeprefix("--") in OPTIONS for word in options):
        options += said_by(search)
    with tempfile.TemporaryDirectory() as folder:
        looks = Looks(program, solver, search, folder)
        try:
            found = utmost(looks, options, wants_most)
        except (NoAnswer, BadInput) as fault:
            sys.exit(f"tighten.py: {fault}")
    print(f"solving {looks.solving:.2f} s, formulas {looks.making:.2f} s", file=sys.stderr)
    print("no pattern" if found is None else f"{'most' if wants_most else 'least'} {found}")
    sys.exit(20 if found is None else 10)


if __name__ == "__main__":
    ending.run(main, __doc__)
