#!/usr/bin/env python3
"""Keeps a proof that a search is about to write over, where it is of another question.

    keep.py PROGRAM WORD ..

The WORDs are those of a command line of `lls` that hasn't run yet; PROGRAM prints a formula. Where it is a search, and its PROOF is there and has a first id that
isn't the first one behind the question's formula, PROOF is copied to PROOF.old, or to the first name behind it that is free (PROOF.old2, ..), and a line says so. Prints
nothing else, and nothing where the words can't be read. `./lls` calls this.
"""
import os
import shutil
import sys

import ending
import words as spoken
from refused import ADDITION, LOOK, clauses_made

SEARCHES = {"search": "check", "sat": "lrat"}


def first_id(name):
    """Returns the id of a proof's first line, or None."""
    try:
        with open(name, "rb") as file:
            found = ADDITION.match(file.read(LOOK))
    except OSError:
        return None
    return int(found[1]) if found else None


def free_name(name):
    """Returns the first name for an old file that no file has."""
    candidates = (f"{name}.old{number if number > 1 else ''}" for number in range(1, 1000))
    return next(candidate for candidate in candidates if not os.path.lexists(candidate))


def other_proof(program, words):
    """Returns the name of the proof that these words write over, where it is of another question, or None."""
    try:
        command, values = spoken.job(words)
        if command not in SEARCHES:
            return None
        name, given = values["proof"], spoken.scan(words, spoken.COMMANDS[command][1])[1]
        known = first_id(name)
        if known is None:
            return None
        clauses = clauses_made(program, SEARCHES[command], values, {option: value for option, value in given.items() if option in spoken.FORMED})
        return name if clauses is not None and known != clauses + 1 else None
    except (OSError, KeyError, spoken.Fault):
        return None


def main():
    program, *words = ending.words(__doc__, "PROGRAM", "WORD ..")
    name = other_proof(program, words)
    if name is not None:
        kept = free_name(name)
        shutil.copyfile(name, kept)
        print(f"lls: '{name}' has a proof of another question, which is kept as '{kept}'")


if __name__ == "__main__":
    ending.run(main, __doc__)
