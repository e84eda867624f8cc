"""The turns and mirrors of a grid, and those under which a question looks the same.

Written from docs/definitions.md alone: it shares nothing with the crates.
"""

# Where each motion takes a cell of a grid of h rows and w columns.
MOTIONS = {
    "half": lambda h, w, y, x: (h - 1 - y, w - 1 - x),
    "quarter": lambda h, w, y, x: (x, h - 1 - y),
    "back": lambda h, w, y, x: (w - 1 - x, y),
    "rows": lambda h, w, y, x: (h - 1 - y, x),
    "columns": lambda h, w, y, x: (y, w - 1 - x),
    "down": lambda h, w, y, x: (x, y),
    "up": lambda h, w, y, x: (w - 1 - x, h - 1 - y),
}

GENERATORS = {
    "C1": [],
    "C2": ["half"],
    "C4": ["quarter"],
    "D2-": ["rows"],
    "D2|": ["columns"],
    "D2\\": ["down"],
    "D2/": ["up"],
    "D4+": ["rows", "columns"],
    "D4x": ["down", "up"],
    "D8": ["quarter", "columns"],
}

# Those that make columns of rows, so that a grid has to be a square.
EXCHANGING = ("quarter", "back", "down", "up")


def square_map(*motions):
    """What motions do one after another, as places of a square of three rows: there no two motions do the same."""
    places = [(y, x) for y in range(3) for x in range(3)]
    for motion in motions:
        places = [MOTIONS[motion](3, 3, *place) for place in places]
    return tuple(places)


def group_of(symmetry):
    """All that the motions of a symmetry make, nothing among it."""
    group = {square_map(): ()}
    while True:
        more = {square_map(*way, generator): (*way, generator) for way in group.values() for generator in GENERATORS[symmetry]}
        if more.keys() <= group.keys():
            return group.keys()
        group = {**more, **group}


def inverse_of(motion):
    return next(other for other in MOTIONS if square_map(motion, other) == square_map())


def tied(words):
    """A file's cells, where each name is the number of the cell that has it first, with whether the signs differ."""
    firsts, found = {}, []
    for k, word in enumerate(words):
        kind, mark = word.rstrip("'"), word.endswith("'")
        if kind not in ("0", "1", "*"):
            first, sign = firsts.setdefault(kind.lstrip("-"), (k, kind[0]))
            kind = (first, (sign == "-") != (kind[0] == "-"))
        found.append((kind, mark))
    return found


def image(motion, height, width, cells):
    """Of each cell of a generation, in the order of rows, that of its image."""
    to = [MOTIONS[motion](height, width, y, x) for y in range(height) for x in range(width)]
    return [cells[x + width * y] for y, x in to]


def looks_the_same(motion, generations, symmetry, shift, listed):
    """Whether the motion takes the question to itself, and isn't one that it demands."""
    height, width = len(generations[0]), len(generations[0][0])
    if motion in EXCHANGING and height != width:
        return False
    group = group_of(symmetry)
    if square_map(motion) in group or any(square_map(inverse_of(motion), way, motion) not in group for way in GENERATORS[symmetry]):
        return False
    dx, dy = shift
    if MOTIONS[motion](1, 1, dy, dx) != (dy, dx):
        return False
    if any(pattern not in [image(motion, height, width, other) for other in listed] for pattern in listed):
        return False
    cells = [[word for row in rows for word in row] for rows in generations]
    turned = [word for words in cells for word in image(motion, height, width, words)]
    return tied(turned) == tied([word for words in cells for word in words])


def same_motions(generations, symmetry="C1", shift=(0, 0), listed=()):
    """The motions under which a question looks the same, but those that it demands: of generations of rows of words, a symmetry, what a period
    moves to the right and down, and patterns that generation 0 mustn't be, each its cells row by row."""
    return [motion for motion in MOTIONS if looks_the_same(motion, generations, symmetry, shift, listed)]
