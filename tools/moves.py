#!/usr/bin/env python3
"""Says where a question asks for a move that its symmetry doesn't leave to anything alive.

    moves.py WORD ..

The WORDs are those of a command line of `lls`. A symmetry is about the middle of the grid in every generation. What is there again moved by DX,DY is symmetric about the
middle moved by that too, and nothing of a finite number of cells is, unless each turn or reflection of the symmetry keeps that direction. Prints a line then, and
else nothing. `./lls` calls this behind the answer that nothing fits.
"""
import sys

import ending
import words as spoken
from images import GENERATORS, MOTIONS


def keeps(motion, right, down):
    """Whether a turn or reflection keeps a direction."""
    (y, x), (moved_y, moved_x) = MOTIONS[motion](0, 0, 0, 0), MOTIONS[motion](0, 0, down, right)
    return (moved_y - y, moved_x - x) == (down, right)


def note_on(words):
    try:
        command, _ = spoken.job(words)
        given = spoken.scan(words, spoken.COMMANDS[command][1])[1]
    except spoken.Fault:
        return None
    if "symmetry" not in given or "period" not in given:
        return None
    symmetry, period = given["symmetry"][1], given["period"][1]
    right, down = map(int, period.split(",")[1:]) if "," in period else (0, 0)
    if all(keeps(motion, right, down) for motion in GENERATORS[symmetry]):
        return None
    return f"nothing alive moves by {right},{down} and is symmetric by {symmetry} about one middle in every generation, in however large a box"


def main():
    note = note_on(sys.argv[1:])
    if note:
        print("lls: note:", note)


if __name__ == "__main__":
    ending.run(main, __doc__)
