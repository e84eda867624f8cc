#!/usr/bin/env python3
"""Lists generation 0 of all patterns that fit a search file, and proves that there is no other.

    all.py [--lls PROGRAM] [--most N] SEARCH LIST PROOF [WORD ..]

The words are options of `search`, but for --but; with `--as rle` LIST is pictures. It searches with `--but LIST` again and again, and puts generation 0 of what was found behind LIST, until there is
nothing, or N patterns stand there (1,000 without --most), or a search is undecided. A LIST that is there is gone on with; it is written beside, under a name
that begins with a dot, and renamed for each pattern, so it is whole whenever this ends. Prints `all N` with status 10, or `no pattern` with 20, where PROOF proves that each
pattern begins with one of LIST: `check` of the same question with `--but LIST` accepts it. Else `at least N` with status 30: LIST has those found, and PROOF is the log of an
undecided search, or as it was. A refusal of the program is printed with its status. Each search begins anew, so many patterns take long.
With `--images one` each pattern is put there with its images under the turns and mirrors under which the question looks the same, which are patterns
too. So each search finds one of another kind, and there are up to eight times fewer of them; then more than N may stand in LIST.
"""
import itertools
import os
import re
import sys

import ending
from images import image, same_motions
from refute import read_search_file
from rle import read_rles
from with_solver import LLS, NoAnswer, run

PATTERN, ABSENT, UNDECIDED = 10, 20, 30


class Rows:
    """Patterns as rows of cells, with a blank line between two of them."""

    BETWEEN = "\n\n"

    @staticmethod
    def first(text):
        """Returns generation 0 of a printed history."""
        return "".join(f"{row}\n" for row in itertools.takewhile(bool, text.split("\n")))

    @staticmethod
    def cells(text):
        """Returns the cells of a pattern's text, row by row."""
        return [int(word) for word in text.split()]

    @staticmethod
    def like(text, cells, width):
        """Returns the text of a pattern of these cells, in the form of another one's."""
        return "".join(" ".join(map(str, cells[at : at + width])) + "\n" for at in range(0, len(cells), width))

    @staticmethod
    def count(text):
        """Returns how many patterns a list has."""
        rows = [line.strip() for line in text.split("\n") if not line.startswith("#")]
        return sum(1 for before, row in zip(["", *rows], rows) if row and not before)


class Pictures:
    """Patterns in RLE, one behind the other."""

    BETWEEN = "\n"

    @staticmethod
    def first(text):
        return text[: text.index("!") + 1] + "\n"

    @staticmethod
    def cells(text):
        return [cell for row in read_rles(text)[0].rows for cell in row]

    @staticmethod
    def like(text, cells, width):
        rows = ("".join("bo"[cell] for cell in cells[at : at + width]) for at in range(0, len(cells), width))
        return text.split("\n", maxsplit=1)[0] + "\n" + "$".join(rows) + "!\n"

    @staticmethod
    def count(text):
        return len(re.findall(r"^[ \t]*x[ \t]*=", text, re.MULTILINE))


def value_of(name, words):
    """Returns the value that words give an option, or None."""
    given = [word.partition("=")[2] for word in words if word.startswith(f"--{name}=")]
    return (given + [value for word, value in zip(words, words[1:]) if word == f"--{name}"] + [None])[0]


class Kinds:
    """Which patterns are of one kind: those that the turns and mirrors make of one another under which a question looks the same."""

    def __init__(self, search, words):
        self.motions, self.height, self.width = [], 0, 0
        if value_of("images", words) == "one":
            with open(search, encoding="ascii") as file:
                generations = read_search_file(file.read())
            self.height, self.width = len(generations[0]), len(generations[0][0])
            moved = (value_of("period", words) or "").split(",")[1:]
            self.motions = same_motions(generations, value_of("symmetry", words) or "C1", tuple(map(int, moved)) or (0, 0))

    def of(self, form, text):
        """Returns the texts of the pattern and of its images."""
        cells = form.cells(text) if self.motions else []
        images = {tuple(image(motion, self.height, self.width, cells)): None for motion in self.motions}
        return [text, *(form.like(text, other, self.width) for other in images if list(other) != cells)]


def text_of(name):
    """Returns the text of a list, made empty where it isn't there."""
    if not os.path.exists(name):
        write(name, "")
    with open(name, encoding="ascii") as file:
        return file.read()


def write(name, text):
    """Writes a file beside itself, and renames it."""
    folder, last = os.path.split(name)
    beside = os.path.join(folder, f".{last}.part")
    with open(beside, "w", encoding="ascii") as file:
        file.write(text)
    os.replace(beside, name)


def list_all(program, most, search, listed, proof, words):
    """Finds patterns until there is an end to it, and returns the status and the line that says how it ended."""
    text, form, kinds = text_of(listed), Pictures if value_of("as", words) == "rle" else Rows, Kinds(search, words)
    count = form.count(text)
    while count < most:
        status, found = run(program, "search", search, proof, *words, "--but", listed)
        if status == PATTERN:
            for pattern in kinds.of(form, form.first(found)):
                text = (text.rstrip() + form.BETWEEN + pattern).lstrip("\n")
                count += 1
            write(listed, text)
        elif status == ABSENT:
            return (PATTERN, f"all {count}") if count else (ABSENT, "no pattern")
        elif status == UNDECIDED:
            break
        else:
            return status, ""
    return UNDECIDED, f"at least {count}"


def main():
    program = ending.option("--lls", LLS)
    most = ending.number(ending.option("--most", "1000"), "--most")
    search, listed, proof, *words = ending.words(__doc__, "SEARCH", "LIST", "PROOF", "WORD..")
    if any(word.split("=")[0] == "--but" for word in words):
        sys.exit("all.py: --but can't stand here")
    try:
        status, line = list_all(program, most, search, listed, proof, words)
    except NoAnswer as fault:
        sys.exit(f"all.py: {fault}")
    if line:
        print(line)
    return status


if __name__ == "__main__":
    ending.run(main, __doc__)
