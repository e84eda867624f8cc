#!/usr/bin/env python3
"""Writes a picture as `lls judge --as rle` reads it: in RLE, with the size of a search file's grid.

    place.py SEARCH PICTURE [--at X,Y]

PICTURE is a file in RLE with or without a header, plaintext (.cells), Life 1.05 or Life 1.06. Its top left cell comes to column X and
row Y of the grid, counted from 0, both 0 where --at isn't given. The RLE goes to the standard output; the standard error says which
rule the picture names, and what was left out.

    tools/place.py q.lls glider.cells --at 1,1 > glider.rle
    lls judge q.lls glider.rle --as rle
"""
import argparse
import sys

import ending
from pattern import BadInput, sizes_of
from pictures import BadPicture, pictures_of, place_word, placed


def runs_text(rows):
    """Returns the items of an RLE: runs of cells, and of row ends where dead rows lie between."""
    text, ends = "", 0
    for row in rows:
        line, x = "", 0
        while 1 in row[x:]:
            end = x
            while end < len(row) and row[end] == row[x]:
                end += 1
            line += f"{end - x if end - x > 1 else ''}{'bo'[row[x]]}"
            x = end
        if line:
            text += f"{ends if ends > 1 else ''}{'$' * bool(ends)}{line}"
            ends = 0
        ends += 1
    return text + "!"


def folded(text, width=70):
    """Returns lines of at most so many characters, none of which cuts a count from its tag."""
    lines, line, item = [], "", ""
    for char in text:
        item += char
        if not char.isdigit():
            if len(line) + len(item) > width:
                lines.append(line)
                line = ""
            line, item = line + item, ""
    return "\n".join(lines + [line])


def main():
    parser = argparse.ArgumentParser(description=__doc__, formatter_class=argparse.RawDescriptionHelpFormatter)
    parser.add_argument("search", metavar="SEARCH")
    parser.add_argument("picture", metavar="PICTURE")
    parser.add_argument("--at", metavar="X,Y", type=place_word, default=(0, 0))
    words = parser.parse_args()
    try:
        with open(words.search, encoding="utf-8", errors="replace") as file:
            _, height, width = sizes_of(file.read())
        with open(words.picture, encoding="utf-8", errors="replace") as file:
            picture = pictures_of(file.read())[0]
        rows, rule = placed(picture.rows, width, height, words.at), picture.known_rule()
    except OSError as fault:
        return f"place.py: {fault.filename}: {fault.strerror}"
    except (BadInput, BadPicture) as fault:
        return f"place.py: {words.search if isinstance(fault, BadInput) else words.picture}: {fault}"
    print(f"x = {width}, y = {height}, rule = {rule or 'B3/S23'}")
    print(folded(runs_text(rows)))
    print("options:", f"--rule {rule}" if rule else "none", file=sys.stderr)
    for note in picture.notes:
        print("note:", note, file=sys.stderr)
    return 0


if __name__ == "__main__":
    ending.run(main, __doc__)
