#!/usr/bin/env python3
"""Prints the pattern of an answer of `lls` as plaintext, the `.cells` of the LifeWiki: `O` for a live cell and `.` for a dead one.

    cells.py <ANSWER

Each generation has a line `!Generation N` above its rows. A line above the pattern, as `least 5` or a rule, becomes a comment `!least 5`; an answer without a
pattern is printed as it is. `./lls --as cells` calls this.
"""
import sys

import ending
from show import ANSWERS, cut_headline, is_known, read_generations


def plaintext(text):
    """Returns the lines of an answer."""
    if text.strip() in ANSWERS or not text.strip():
        return text.splitlines()
    headline, below = cut_headline(text)
    generations = read_generations(below)
    if not is_known(generations):
        return text.splitlines()
    lines = [f"!{line}" for line in headline]
    for number, rows in enumerate(generations):
        lines += [f"!Generation {number}", *("".join(".O"[word.rstrip("'") == "1"] for word in row) for row in rows)]
    return lines


def main():
    ending.words(__doc__)
    for line in plaintext(sys.stdin.read()):
        print(line)


if __name__ == "__main__":
    ending.run(main, __doc__)
