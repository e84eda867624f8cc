#!/usr/bin/env python3
"""Writes inputs that cost much for their size, into a folder, and prints the command for each.

    hostile.py FOLDER

docs/architecture.md, "What a stranger's input can cost", says what each costs.
"""
import os
import string

import ending

CELL = "1\n\n1\n"
TWO = "p cnf 1 2\n-1 0\n1 0\n"
UNIT = "p cnf 2 1\n1 0\n"
SOME = "p cnf 2 1\n1 2 0\n"


def names():
    """Names of letters, no two alike, the short ones first."""
    ends = [""]
    while True:
        ends = [end + letter for end in ends for letter in string.ascii_lowercase]
        yield from ends


def grid(generations, height, width, cells):
    """A search file of these cells, row by row."""
    rows = lambda: "".join(" ".join(next(cells) for _ in range(width)) + "\n" for _ in range(height))
    return "\n".join(rows() for _ in range(generations))


def unknown():
    while True:
        yield "*"


# The file, what is in it, and the command.
INPUTS = (
    ("hints", lambda: "5 0" + " 1" * 32_000_000 + " 0\n", "lls check cell.lls hints"),
    ("digits", lambda: "5 0 " + "1" * 64_000_000 + "\n", "lls check cell.lls digits"),
    ("additions", lambda: "".join(f"{number} 1 0 1 0\n" for number in range(5, 4_000_005)), "lls check cell.lls additions"),
    ("chain", lambda: "".join(f"{number} 1 0 {number - 1} 0\n" for number in range(3, 4_000_003)) + "4000003 0 4000002 1 0\n", "lls trim two.cnf chain out"),
    ("looked", lambda: "3 0" + " 2" * 32_000_000 + " 1 0\n", "lls trim two.cnf looked out"),
    ("variables.cnf", lambda: "p cnf 16777216 0\n", "lls sat variables.cnf proof"),
    ("empty.cnf", lambda: "p cnf 1 32000000\n" + "0\n" * 32_000_000, "lls sat empty.cnf proof"),
    ("units.cnf", lambda: "p cnf 1 16000000\n" + "1 0\n" * 16_000_000, "lls sat units.cnf proof"),
    ("wide.cnf", lambda: "p cnf 1 1\n" + "1 " * 32_000_000 + "0\n", "lls sat wide.cnf proof"),
    ("names.lls", lambda: grid(2, 64, 64, names()), "lls search names.lls proof --budget 1"),
    ("cells.lls", lambda: grid(2, 64, 64, unknown()), "lls search cells.lls proof --live 0:244- --rule B1357/S1357 --formula 1 --budget 1"),
    # Each of the lemmas stands, since 1 holds for good. None of the deletions names one.
    ("unknown.drat", lambda: "".join(f"1 {v} 0\n" for v in range(3, 100_003)) + "".join(f"d 2 {v} 0\n" for v in range(3, 100_003)), "lls-hints unit.cnf unknown.drat out"),
    # Each lemma stands by its first literal, which is new, and is deleted at once.
    ("pivots.drat", lambda: "".join(f"{v} 2 0\nd {v} 2 0\n" for v in range(3, 100_003)), "lls-hints some.cnf pivots.drat out"),
    ("long.lls", lambda: grid(64, 11, 11, unknown()), "lls search long.lls proof --period 4,1,1 --symmetry D8 --live 0:1-121 --differ 0,1 --budget 1"),
)


def main():
    (folder,) = ending.words(__doc__, "FOLDER")
    os.makedirs(folder, exist_ok=True)
    for name, text, _ in (("cell.lls", lambda: CELL, None), ("two.cnf", lambda: TWO, None), ("unit.cnf", lambda: UNIT, None), ("some.cnf", lambda: SOME, None), *INPUTS):
        with open(f"{folder}/{name}", "w", encoding="ascii") as file:
            file.write(text())
    for _, _, command in INPUTS:
        print(command)
    return 0


if __name__ == "__main__":
    ending.run(main, __doc__)
