"""Reads patterns in RLE, the form of Golly and the LifeWiki, with two states; of LifeHistory's seven the odd ones are live."""
import re

HEADER = re.compile(r"[ \t]*x[ \t]*=[ \t]*(\d+)[ \t]*,[ \t]*y[ \t]*=[ \t]*(\d+)[ \t]*(?:,[ \t]*(.*))?$", re.IGNORECASE)
ITEM = re.compile(r"[ \t\r\n]*(\d*)[ \t\r\n]*([bo$!])")


# Golly's states `.` and A to F of a rule with a history, as dead and live.
HISTORY = str.maketrans(".ABCDEF", "bobobob")
# The most rows and columns of a picture.
MOST_SIDE = 10_000


class BadRle(Exception):
    """A text that is no RLE, with why."""


class Pattern:
    """One pattern: its rows of 0 and 1, as many as its header says or more, and its rule's text or None."""

    def __init__(self, rows, rule):
        self.rows, self.rule = rows, rule


def read_rles(text):
    """Returns the patterns of a text, one behind the other."""
    lines = [line for line in text.splitlines() if not line.startswith("#")]
    starts = [place for place, line in enumerate(lines) if HEADER.match(line)]
    if not starts or any(line.strip() for line in lines[: starts[0]]):
        raise BadRle("no header, as `x = 3, y = 3`")
    return [read_one(lines[start:end]) for start, end in zip(starts, starts[1:] + [len(lines)])]


def read_one(lines):
    """Returns the pattern of a header line and the lines behind it."""
    width, height, rest = HEADER.match(lines[0]).groups()
    # The rule comes last, and its name may have blanks.
    rule = re.search(r"rule[ \t]*=[ \t]*(.*\S)", rest or "", re.IGNORECASE)
    items = "\n".join(lines[1:])
    if rule and rule.group(1).rstrip(",").lower().endswith("history"):
        items = items.translate(HISTORY)
    rows = grid_of(read_runs(items), int(width), int(height))
    return Pattern(rows, rule and rule.group(1).rstrip(","))


def read_runs(text):
    """Returns the runs of live cells, each a row, a column and a length."""
    runs, row, column, place = [], 0, 0, 0
    while True:
        item = ITEM.match(text, place)
        if not item:
            rest = text[place:].strip()
            raise BadRle(f"no item of an RLE: {rest[:20]!r}" if rest else "no `!` at the end of an RLE")
        count, tag = int(item.group(1) or 1), item.group(2)
        if tag == "!":
            return runs
        if tag == "$":
            row, column = row + count, 0
        else:
            if tag == "o":
                runs.append((row, column, count))
            column += count
        place = item.end()


def grid_of(runs, width, height):
    """Returns the rows of a grid that holds all runs, at least of the given size."""
    width = max([width] + [column + count for _, column, count in runs])
    height = max([height] + [row + 1 for row, _, _ in runs])
    if max(width, height) > MOST_SIDE:
        raise BadRle(f"a picture of more than {MOST_SIDE} rows or columns")
    rows = [[0] * width for _ in range(height)]
    for row, column, count in runs:
        rows[row][column : column + count] = [1] * count
    return rows
