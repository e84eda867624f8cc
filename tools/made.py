#!/usr/bin/env python3
"""Makes a search file that has a solution, and that solution, from a number.

    made.py SEED SIZE

Two generations of SIZE rows of SIZE cells under B3/S23, whose second is fixed. It is there for tests, which compare what
`lls_gen` makes with it; the solution stands behind the file and a line `--`.
"""

import ending


def numbers(seed, count):
    for _ in range(count):
        seed = (6364136223846793005 * seed + 1442695040888963407) % 2**64
        yield seed


def text(rows):
    return "\n".join(" ".join(row) for row in rows)


def main():
    seed, size = (ending.number(word, "each of the two") for word in ending.words(__doc__, "SEED", "SIZE"))
    drawn = list(numbers(seed, size * size))
    live = {divmod(k, size) for k, number in enumerate(drawn) if number >= 2**63}
    unknown = {divmod(k, size) for k, number in enumerate(drawn) if number // 2**60 % 8 == 0}

    def around(y, x):
        return sum((y + i, x + j) in live for i in (-1, 0, 1) for j in (-1, 0, 1) if (i, j) != (0, 0))

    def rows(word):
        return text([word(y, x) for x in range(size)] for y in range(size))

    first = rows(lambda y, x: str(int((y, x) in live)))
    file = rows(lambda y, x: "*" if (y, x) in unknown else str(int((y, x) in live)))
    later = rows(lambda y, x: str(int(around(y, x) == 3 or around(y, x) == 2 and (y, x) in live)))
    print(file, "", later, "--", first, "", later, sep="\n")


if __name__ == "__main__":
    ending.run(main, __doc__)
