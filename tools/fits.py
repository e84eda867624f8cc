#!/usr/bin/env python3
"""Says what of a picture `lls judge --as rle` doesn't look at, or can't take: the rule that it names, and a size beyond the grid's.

    fits.py WORD ..

The WORDs are those of a command line of `lls`. Prints a line for each thing that a reader should know, and nothing where all fits, where
the command is another one, or where the files can't be read: of that the program speaks itself. `./lls` calls this.
"""
import sys

import ending
import words as spoken
from pattern import BadInput, sizes_of
from pictures import BadPicture, pictures_of

# as many bytes of a file as the program reads
LOOK = 1_048_576


def content(name):
    with open(name, encoding="utf-8", errors="replace") as file:
        return file.read(LOOK)


def rule_notes(name, said, rule):
    """Says of the rule that a picture names how it differs from that of the words."""
    if said is None:
        return []
    if spoken.rule_fault(said):
        return [f"{name} names the rule {said!r}, which is not known here, and is judged under {rule}"]
    if spoken.rule_sides(said) == spoken.rule_sides(rule):
        return []
    return [f"{name} names the rule {said}, and is judged under {rule}; --rule {said} judges it under its own"]


def size_notes(name, rows, search):
    """Says where a picture has live cells outside of the grid, whose first column and row are the picture's."""
    _, height, width = sizes_of(content(search))
    live = [(x, y) for y, row in enumerate(rows) for x, cell in enumerate(row) if cell]
    if not live or max(y for _, y in live) < height and max(x for x, _ in live) < width:
        return []
    columns, down = max(x for x, _ in live) + 1, max(y for _, y in live) + 1
    return [f"{name} is {columns} wide and {down} high, and the grid of {search} {width} by {height}; tools/place.py places a picture elsewhere in it"]


def notes_on(words):
    try:
        command, values = spoken.job(words)
    except spoken.Fault:
        return []
    if command != "judge" or values.get("as") != "rle":
        return []
    name = values["pattern"]
    try:
        picture = pictures_of(content(name))[0]
        return [*picture.notes, *rule_notes(name, picture.rule, values.get("rule", "B3/S23")), *size_notes(name, picture.rows, values["search"])]
    except (OSError, BadInput, BadPicture):
        return []


def main():
    for note in notes_on(sys.argv[1:]):
        print("lls: note:", note)


if __name__ == "__main__":
    ending.run(main, __doc__)
