#!/usr/bin/env python3
"""Makes the pattern of a solver's model of a search file's formula.

    pattern.py SEARCH < MODEL

SEARCH is the search file whose formula `lls cnf` printed; the pattern has its generations, rows and columns. MODEL is what a SAT
solver prints: the line `s SATISFIABLE`, and values on lines that begin with `v`, one for each cell at least. Anything else, as a
formula without a model, is refused with a sentence and status 1, and no pattern is printed.

Nothing has to be trusted here: `lls judge` judges what is printed.
"""
import sys

import ending
from refute import read_search_file


class BadInput(Exception):
    """A model or a search file that makes no pattern, with why."""


def sizes_of(text):
    """Returns how many generations, rows and columns a search file has."""
    generations = read_search_file(text)
    if not generations or not generations[0]:
        raise BadInput("the search file has no rows of cells")
    height, width = len(generations[0]), len(generations[0][0])
    if any(len(rows) != height or any(len(row) != width for row in rows) for rows in generations):
        raise BadInput("the search file's generations or rows differ in size")
    return len(generations), height, width


def values_of(text):
    """Returns the values that a solver printed, by variable."""
    lines = text.splitlines()
    status = next((line.split(maxsplit=1)[1].strip() for line in lines if line.startswith("s ")), None)
    if status is None:
        raise BadInput("no line 's SATISFIABLE': this is no solver's answer")
    if status != "SATISFIABLE":
        raise BadInput(f"the solver says '{status}', so there is no model")
    try:
        numbers = [int(word) for line in lines if line.startswith("v") for word in line.split()[1:]]
    except ValueError:
        raise BadInput("a word on a line 'v' is no number") from None
    return {abs(number): number > 0 for number in numbers if number}


def pattern_of(search, model):
    """Returns the lines of the pattern: the first variables are the cells by generation, row and column."""
    generations, height, width = sizes_of(search)
    values = values_of(model)
    missing = next((cell for cell in range(1, generations * height * width + 1) if cell not in values), None)
    if missing is not None:
        raise BadInput(f"the model gives no value to variable {missing}, a cell: was it made of another formula?")
    lines = []
    for t in range(generations):
        for y in range(height):
            first = (t * height + y) * width + 1
            lines.append(" ".join("01"[values[cell]] for cell in range(first, first + width)))
        lines.append("")
    return lines[:-1]


def main():
    (name,) = ending.words(__doc__, "SEARCH")
    with open(name, encoding="utf-8", errors="replace") as file:
        search = file.read()
    try:
        lines = pattern_of(search, sys.stdin.buffer.read().decode("utf-8", errors="replace"))
    except BadInput as fault:
        return f"pattern.py: {fault}"
    print("\n".join(lines))
    return 0


if __name__ == "__main__":
    ending.run(main, __doc__)
