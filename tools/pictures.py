"""Reads pictures in the forms of collections: RLE with or without a header, plaintext (.cells), Life 1.05 and Life 1.06; and says rules in
B/S notation that go by a name. Of an RLE of LifeHistory the states A, C and E are live; a forum's marks `[code]` round a picture are left out. The forms are those of the LifeWiki's pages `Run Length Encoded`, `Plaintext`, `Life 1.05`, `Life 1.06`.
"""
import re

import words
from rle import HEADER, BadRle, grid_of, read_rles, read_runs

# Rules that go by a name, without blanks and in small letters, as the LifeWiki's `List of Life-like rules` has them.
NAMED_RULES = {
    "life": "B3/S23",
    "conway": "B3/S23",
    "conwayslife": "B3/S23",
    "highlife": "B36/S23",
    "day&night": "B3678/S34678",
    "dayandnight": "B3678/S34678",
    "seeds": "B2/S",
    "livefreeordie": "B2/S0",
    "lifewithoutdeath": "B3/S012345678",
    "drylife": "B37/S23",
    "dotlife": "B3/S023",
    "eightlife": "B3/S238",
    "pedestrianlife": "B38/S23",
    "honeylife": "B38/S238",
    "longlife": "B345/S5",
    "34life": "B34/S34",
    "2x2": "B36/S125",
    "move": "B368/S245",
    "morley": "B368/S245",
    "maze": "B3/S12345",
    "mazectric": "B3/S1234",
    "coral": "B3/S45678",
    "flock": "B3/S12",
    "replicator": "B1357/S1357",
    "gnarl": "B1/S1",
    "amoeba": "B357/S1358",
    "diamoeba": "B35678/S5678",
    "anneal": "B4678/S35678",
    "vote": "B5678/S45678",
    "stains": "B3678/S235678",
    "coagulations": "B378/S235678",
    "walledcities": "B45678/S2345",
    "justfriends": "B2-a/S12",
    "tlife": "B3/S2-i34q",
}
BOUND = re.compile(r":[A-Za-z].*$")
PLAIN_ROW = re.compile(r"[.Oo*]*[ \t]*")


class BadPicture(Exception):
    """A text that is no picture of these forms, with why."""


class Picture:
    """A picture: its form, its rows of 0 and 1, the rule that it names or None, and what of the text was left out."""

    def __init__(self, form, rows, rule=None, notes=()):
        self.form, self.rows, self.rule, self.notes = form, rows, rule, list(notes)

    def known_rule(self):
        """Returns the picture's rule in B/S notation, or None where it names none."""
        if self.rule and words.rule_fault(self.rule):
            raise BadPicture(f"the rule {self.rule!r} is not in B/S notation, and its name is not known here")
        return self.rule


def rule_of(text):
    """Returns a rule's text, in B/S notation where it is a name that is known, and notes on what was left out of it."""
    bound = BOUND.search(text)
    notes = []
    if bound:
        notes.append(f"the bounded grid {bound.group()[1:]!r} of the rule is left out: round the grid of a search file everything stays dead")
        text = text[: bound.start()]
    if text.lower().endswith("history"):
        text = text[: -len("history")]
    name = re.sub(r"[ \t'_-]", "", text).lower().replace("×", "x")
    return NAMED_RULES.get(name, text.strip()), notes


def without_marks(text):
    """Returns a text without a forum's marks round it."""
    return re.sub(r"(?i)\[/?code\]", "", text)


def pictures_of(text):
    """Returns the pictures of a text, one behind the other; only RLE has more than one."""
    text = without_marks(text)
    lines = [line.rstrip() for line in text.splitlines()]
    head = next((line for line in lines if line), "")
    if head.startswith("#Life"):
        return [life_of(head, lines)]
    content = [line for line in lines if line and not line.startswith("#")]
    if is_plaintext(lines):
        return [plaintext_of(lines)]
    if content and HEADER.match(content[0]):
        return rles_of(text, lines)
    if is_bare_rle(content):
        return [Picture("RLE", bare_rle_of("\n".join(content)), *rule_behind("#r", lines))]
    raise BadPicture("no picture in RLE, plaintext (.cells), Life 1.05 or Life 1.06")


def is_picture(text):
    """Whether a text looks like a picture, and not like the rows of a search file."""
    lines = [line.rstrip() for line in without_marks(text).splitlines()]
    content = [line for line in lines if line and not line.startswith("#")]
    head = next((line for line in lines if line), "")
    return head.startswith("#Life") or is_plaintext(lines) or bool(content) and bool(HEADER.match(content[0])) or is_bare_rle(content)


# RLE.


def is_bare_rle(content):
    """Whether lines are the items of an RLE, without a header: nothing else has a `!` behind its cells."""
    return re.match(r"[\dbo$ \t\n]*!", "\n".join(content)) is not None and re.search(r"[bo$]", content[0]) is not None


def rles_of(text, lines):
    """Returns the pictures of RLEs with headers. A rule that a header leaves out may stand in a comment line `#r`."""
    try:
        patterns = read_rles(text)
    except BadRle as fault:
        raise BadPicture(str(fault)) from None
    found = []
    for pattern in patterns:
        rule, notes = rule_of(pattern.rule) if pattern.rule else rule_behind("#r", lines)
        found.append(Picture("RLE", pattern.rows, rule, notes))
    return found


def rule_behind(mark, lines):
    """Returns the rule of the first line that begins with a mark and a blank, or None, and notes on what was left out of it."""
    line = next((line for line in lines if line.startswith(mark + " ")), None)
    return rule_of(line[len(mark) :].strip()) if line else (None, [])


def bare_rle_of(text):
    try:
        return grid_of(read_runs(text), 0, 0)
    except BadRle as fault:
        raise BadPicture(str(fault)) from None


# Plaintext.


def is_plaintext(lines):
    """Whether lines are comments behind `!` and rows of `.` and `O`, and one of them is no row of a search file."""
    rows = [line for line in lines if not line.startswith("!")]
    signs = len(rows) < len(lines) and lines[0].startswith("!") or any("." in row for row in rows)
    return signs and all(PLAIN_ROW.fullmatch(row) for row in rows) and any(rows)


def plaintext_of(lines):
    rows = [line for line in lines if not line.startswith("!")]
    while rows and not rows[-1]:
        rows.pop()
    runs = [(y, x, 1) for y, row in enumerate(rows) for x, cell in enumerate(row) if cell in "Oo*"]
    return Picture("plaintext", grid(runs, max(map(len, rows)), len(rows)))


# Life 1.05 and 1.06.


def life_of(head, lines):
    version = head[len("#Life") :].strip()
    if version == "1.05":
        return life_105(lines)
    if version == "1.06":
        return life_106(lines)
    raise BadPicture(f"Life {version or 'of no version'}, and only 1.05 and 1.06 are known here")


def life_105(lines):
    """Blocks of rows of `.` and `*`, each behind a line `#P X Y` that says where its first cell stands."""
    cells, at, rule = set(), (0, 0), (None, [])
    for line in lines[1:]:
        if line.startswith("#P"):
            at = place(line[2:])
        elif line.startswith("#R"):
            rule = rule_of(line[2:].strip())
        elif line.startswith("#N"):
            rule = ("B3/S23", [])
        elif line and not line.startswith("#"):
            if not re.fullmatch(r"[.*]+", line):
                raise BadPicture(f"no row of `.` and `*`: {line[:20]!r}")
            cells |= {(at[0] + x, at[1]) for x, cell in enumerate(line) if cell == "*"}
            at = (at[0], at[1] + 1)
    return Picture("Life 1.05", cornered(cells), *rule)


def life_106(lines):
    """A line `X Y` for each live cell."""
    return Picture("Life 1.06", cornered({place(line) for line in lines[1:] if line and not line.startswith("#")}))


def place(text):
    found = re.fullmatch(r"\s*(-?\d{1,9})\s+(-?\d{1,9})", text)
    if not found:
        raise BadPicture(f"no column and row: {text.strip()[:20]!r}")
    return int(found.group(1)), int(found.group(2))


def cornered(cells):
    """Returns the rows of the least box of live cells, each a column and a row."""
    if not cells:
        return []
    left, top = min(x for x, _ in cells), min(y for _, y in cells)
    return grid([(y - top, x - left, 1) for x, y in cells])


# Grids.


def grid(runs, width=0, height=0):
    """Returns the rows of a grid that holds runs of live cells, at least of the given size."""
    try:
        return grid_of(runs, width, height)
    except BadRle as fault:
        raise BadPicture(str(fault)) from None


def placed(rows, width, height, at):
    """Returns a grid of that size with a picture in it whose first cell is in a column and a row. Its dead cells may be outside."""
    right, down = at
    runs = [(y + down, x + right, 1) for y, row in enumerate(rows) for x, cell in enumerate(row) if cell]
    outside = next(((y, x) for y, x, _ in runs if not (0 <= y < height and 0 <= x < width)), None)
    if outside:
        raise BadPicture(f"a live cell comes to column {outside[1]}, row {outside[0]}, outside of the grid of {width} by {height}")
    return grid_of(runs, width, height)


def place_word(text):
    """Returns the column and the row of a word X,Y."""
    column, row = text.split(",")
    return int(column), int(row)
