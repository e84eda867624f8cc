#!/usr/bin/env python3
"""Writes a formula, and an LRAT proof of it of about so many bytes, which deletes every clause that it adds but the last two.

    long_proof.py FORMULA PROOF BYTES

Through a pipe the proof needn't be kept, and the checker holds none of it:

    mkfifo pipe
    tools/long_proof.py long.cnf pipe 1000000000 &
    ./lls lrat long.cnf pipe

The formula is written before the pipe is opened.
"""
import ending

FORMULA = "p cnf 30 4\n1 2 0\n1 -2 0\n-1 3 0\n-1 -3 0\n"
# Each clause but the last two says that variable 1 is true, or one of these.
OTHERS = " ".join(map(str, range(4, 31)))


def pieces(size):
    """The proof, some thousand lines at a time."""
    clause, count = 5, 0
    while count < size:
        lines = "".join(f"{number} 1 {OTHERS} 0 1 2 0\n{number} d {number} 0\n" for number in range(clause, clause + 1000))
        yield lines
        clause += 1000
        count += len(lines)
    yield f"{clause} 1 0 1 2 0\n{clause + 1} 0 {clause} 3 4 0\n"


def main():
    formula, proof, size = ending.words(__doc__, "FORMULA", "PROOF", "BYTES")
    with open(formula, "w", encoding="ascii") as out:
        out.write(FORMULA)
    with open(proof, "w", encoding="ascii") as out:
        out.writelines(pieces(ending.number(size, "BYTES")))
    return 0


if __name__ == "__main__":
    ending.run(main, __doc__)
