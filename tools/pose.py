#!/usr/bin/env python3
"""Writes the search file of a common question, and says which options go with it.

    pose.py still W H [--margin N]                 a still life in a box of W columns and H rows
    pose.py oscillator W H P [--margin N]          an oscillator of period P whose first phase lies in the box, and whose other
                                                   phases lie in the box and its margin
    pose.py rotor W H P RW RH [--margin N]         an oscillator of period P in the box, of which nothing changes but cells of RW columns and RH rows in the
                                                   middle of the box
    pose.py spaceship W H P DX DY [--margin N]     a pattern in the box that is there again P generations later, moved by
                                                   DX columns to the right and DY rows down; its phases on the way lie in the
                                                   box, its margin and the room that it moves through
    pose.py glide W H N DX [--margin N]            a pattern in the box that is there again N generations later as in a mirror that
                                                   lies along the rows, moved by DX columns: a spaceship of twice that period
    pose.py copies W H N X,Y X,Y .. [--margin N]   a pattern in the box that is there two or more times N generations later, moved by
                                                   X columns and Y rows each time, and nothing besides
    pose.py eater W H N PICTURE X,Y [--margin M]   a still life in the box that N generations after a pattern came to it is there as before, and
                                                   nothing else is
    pose.py torus W H P                            what has period P on a torus of W columns and H rows, or lies all over the plane
                                                   again and again, W columns and H rows apart (an agar)
    pose.py predecessor PICTURE [--back N] [--margin N] [--at X,Y]
                                                   a generation before a pattern, or N generations before it, in the pattern's own
                                                   box and its margin
    pose.py orphan PICTURE [--margin N] [--at X,Y]
                                                   any generation before a pattern, wherever its cells are: `no pattern` says that
                                                   nothing at all comes before these cells

The search file goes to the standard output, or with -o FILE to a file, which is left as it is where the question can't be
asked; the options go to the standard error:

    pose.py oscillator 5 5 2 > q.lls
    options: --period 2 --differ 0,1

They also stand in the file's first line, `#! --period 2 --differ 0,1`, from which `lls COMMAND q.lls ..` takes them.

Where a question looks the same in a mirror, or turned, a note says in how many ways. `--images one` puts that option behind the others: the search is for one
solution of each kind then, and mostly takes a part of the time.

Shorter periods along the same line are left out: of an oscillator by two generations that differ where one prime alone divides the period, else by `--exact yes`.

The margin is N rows and columns more on each side: 1 where it isn't given for what has phases besides (an oscillator, a spaceship, a glide), else
0. Generation 0 is dead there, and later ones may use it;
of a predecessor it is the other way round, and of an orphan the pattern is dead there. Round the grid everything stays dead. Where a
question leaves out what a reader may think of, a note says so.

Of a still life, an oscillator or a spaceship `--band N` leaves unknown only the box's cells of which row and column differ by N at most, and `--region PICTURE` those that are live in the
picture, whose top left cell is the box's; the others are dead in generation 0. `--fewest phase`, of an oscillator or a spaceship, leaves generation 0 unknown in all of the grid, as the others are: then the fewest
live cells that `least` finds there are the fewest of all phases.

The picture of an eater stands with its top left cell X columns to the right of the box's and Y rows below, also to the left and above (-3,-2); the margin is on each side of both, and
dead when the pattern comes.

A PICTURE is a file in RLE with or without a header, plaintext (.cells), Life 1.05 or Life 1.06. It stands in the middle of its margin, or
with --at with its top left cell in column X and row Y of that grid, counted from 0.
"""
import argparse
import math
import re
import sys

import ending
from images import image, same_motions
from pictures import BadPicture, pictures_of, place_word, placed

MOST_GENERATIONS, MOST_ROWS, MOST_CELLS = 64, 64, 8192


class BadQuestion(Exception):
    """A question that no search file can ask, with why."""


class Question:
    """Generations of words of search files, the options that go with them, and what the asker has to know besides."""

    def __init__(self, generations, options, notes=()):
        self.generations, self.options, self.notes = generations, options, notes


def still(width, height, margin):
    first = boxed(width + 2 * margin, height + 2 * margin, margin, margin, width, height)
    return Question([first, unknown_like(first)], ["--period 1", "--live 0:1-"])


def oscillator(width, height, period, margin):
    if period < 2:
        raise BadQuestion("the period of an oscillator is 2 or more; `still` asks for a still life")
    first = boxed(width + 2 * margin, height + 2 * margin, margin, margin, width, height)
    return Question([first] + [unknown_like(first)] * period, [f"--period {period}", no_shorter(period)], [phases_note(first, margin)])


def rotor(width, height, period, columns, rows, margin):
    if columns > width or rows > height:
        raise BadQuestion("the cells that change have to lie in the box")
    question = oscillator(width, height, period, margin)
    # Outside of the middle a cell has one name in all generations, and there is nothing round the box at any time.
    left, top = margin + (width - columns) // 2, margin + (height - rows) // 2
    in_box = lambda x, y: margin <= x < margin + width and margin <= y < margin + height
    turns = lambda x, y: left <= x < left + columns and top <= y < top + rows
    word = lambda x, y: "*" if turns(x, y) else cell_name(x, y) if in_box(x, y) else "0"
    generation = [[word(x, y) for x in range(width + 2 * margin)] for y in range(height + 2 * margin)]
    question.generations = [generation] * (period + 1)
    question.notes = [note for note in question.notes if "phases" not in note] + [f"the cells that change lie at columns {left} to {left + columns - 1}, rows {top} to {top + rows - 1}"]
    return question


def eater(width, height, later, name, at, margin):
    try:
        with open(name, encoding="utf-8", errors="replace") as file:
            picture = pictures_of(file.read())[0]
        if not picture.rows or not picture.rows[0]:
            raise BadPicture("a picture without cells")
        rule = picture.known_rule()
    except OSError as fault:
        raise BadQuestion(f"{name}: {fault.strerror}") from None
    except BadPicture as fault:
        raise BadQuestion(f"{name}: {fault}") from None
    left, top = (margin - min(0, way) for way in at)
    columns = left + max(width, at[0] + len(picture.rows[0])) + margin
    rows = top + max(height, at[1] + len(picture.rows)) + margin
    names = {(left + x, top + y): cell_name(x, y) for y in range(height) for x in range(width)}
    coming = {(left + at[0] + x, top + at[1] + y): str(cell) for y, row in enumerate(picture.rows) for x, cell in enumerate(row) if cell}
    if set(names) & set(coming):
        raise BadQuestion("the picture lies on the box")
    first, last = tied(columns, rows, {**names, **coming}), tied(columns, rows, names)
    # Once more behind it: what is there alone then is a still life.
    generations = [first] + [unknown_like(first)] * (later - 1) + [last, last]
    notes = [*picture.notes, f"all happens in the grid of {columns} by {rows}; --margin {margin + 1} leaves more room"]
    return Question(generations, ([f"--rule {rule}"] if rule else []) + [f"--live {later}:1-"], notes)


def narrowed(question, is_unknown):
    """Makes the unknown cells of generation 0 dead that aren't wanted, by their columns and rows counted from those of the first unknown ones."""
    first = question.generations[0]
    unknown = [(x, y) for y, row in enumerate(first) for x, word in enumerate(row) if word == "*"]
    left, top = min(x for x, _ in unknown), min(y for _, y in unknown)
    keeps = lambda x, y, word: word if word != "*" or is_unknown(x - left, y - top) else "0"
    question.generations[0] = [[keeps(x, y, word) for x, word in enumerate(row)] for y, row in enumerate(first)]
    if not any("*" in row for row in question.generations[0]):
        raise BadQuestion("no cell of the box is left unknown")


def region_of(name):
    """Returns the columns and rows of a picture's live cells."""
    try:
        with open(name, encoding="utf-8", errors="replace") as file:
            rows = pictures_of(file.read())[0].rows
    except OSError as fault:
        raise BadQuestion(f"{name}: {fault.strerror}") from None
    except BadPicture as fault:
        raise BadQuestion(f"{name}: {fault}") from None
    return {(x, y) for y, row in enumerate(rows) for x, cell in enumerate(row) if cell}


def of_any_phase(question):
    """Leaves generation 0 as unknown as the later ones are."""
    question.generations[0] = question.generations[1]
    question.notes.append("generation 0 is any phase, so the fewest live cells of it are the fewest of all phases")


def phases_note(rows, margin):
    """Says what is left out: patterns whose phases reach out of the grid. The margin is what they have besides the box."""
    return f"all phases have to lie in the grid of {len(rows[0])} by {len(rows)}; --margin {margin + 1} leaves them more room"


def no_shorter(period):
    """Returns the option that leaves out the shorter periods: where one prime alone divides the period, two generations that differ say it."""
    factor = least_factor(period)
    alone = all(number % factor == 0 for number in range(2, period + 1) if period % number == 0)
    return f"--differ 0,{period // factor}" if alone else "--exact yes"


def least_factor(number):
    return next(factor for factor in range(2, number + 1) if number % factor == 0)


def spaceship(width, height, period, right, down, margin):
    if period < 1:
        raise BadQuestion("the period of a spaceship is 1 or more")
    if right == 0 and down == 0:
        raise BadQuestion("a spaceship moves; `oscillator` asks for a pattern that stays")
    left, top = margin + max(0, -right), margin + max(0, -down)
    first = boxed(width + 2 * margin + abs(right), height + 2 * margin + abs(down), left, top, width, height)
    times = math.gcd(period, right, down)
    options = [f"--period {period},{right},{down}", *(["--exact yes"] if times > 1 else []), "--live 0:1-"]
    return Question([first] + [unknown_like(first)] * period, options, [phases_note(first, margin)])


def glide(width, height, later, right, margin):
    if right == 0:
        raise BadQuestion("a spaceship moves; without a move this is an oscillator in a mirror")
    left = margin + max(0, -right)
    columns, rows = width + 2 * margin + abs(right), height + 2 * margin
    cells = {(x, y): cell_name(x, y) for y in range(height) for x in range(width)}
    first = tied(columns, rows, {(left + x, margin + y): name for (x, y), name in cells.items()})
    last = tied(columns, rows, {(left + right + x, margin + height - 1 - y): name for (x, y), name in cells.items()})
    notes = [f"it is there again {2 * later} generations later, moved by {2 * right},0", phases_note(first, margin)]
    return Question([first] + [unknown_like(first)] * (later - 1) + [last], ["--live 0:1-"], notes)


def copies(width, height, later, moves, margin):
    if len(moves) < 2:
        raise BadQuestion("two or more copies are asked for, each by its move")
    left, top = (margin + max(0, *(-move[axis] for move in moves)) for axis in (0, 1))
    columns = left + width + margin + max(0, *(x for x, _ in moves))
    rows = top + height + margin + max(0, *(y for _, y in moves))
    cells = {(left + x, top + y): cell_name(x, y) for y in range(height) for x in range(width)}
    moved = [((x + right, y + down), name) for right, down in moves for (x, y), name in cells.items()]
    if len(dict(moved)) < len(moved):
        raise BadQuestion("two of the copies lie on one another")
    first = tied(columns, rows, cells)
    generations = [first] + [unknown_like(first)] * (later - 1) + [tied(columns, rows, dict(moved))]
    return Question(generations, ["--live 0:1-"], [phases_note(first, margin)])


def torus(width, height, period):
    # Each generation has a ring round it of the cells from its other sides, of whose own next states nothing is asked.
    def generation(number):
        name = lambda x, y: f"{cell_name(x % width, y % height)}t{number}"
        is_ring = lambda x, y: x in (-1, width) or y in (-1, height)
        return [[name(x, y) + "'" * (number > 0 and is_ring(x, y)) for x in range(-1, width + 1)] for y in range(-1, height + 1)]

    if period < 1:
        raise BadQuestion("the period is 1 or more")
    told = ["--live 0:1-"] if period == 1 else [no_shorter(period)]
    notes = ["the picture has a ring more, of the cells from its other sides"]
    return Question([generation(number) for number in range(period + 1)], ["--edge open", f"--period {period}", *told], notes)


def cell_name(x, y):
    return f"r{y}c{x}"


def tied(columns, rows, names):
    """Returns a generation that has names at places, columns before rows, and is dead elsewhere."""
    return [[names.get((x, y), "0") for x in range(columns)] for y in range(rows)]


def predecessor(name, margin, at, back):
    wanted, options, notes = wanted_pattern(name, margin, at)
    notes.append("generations before it that reach outside of the grid are left out; `orphan` asks for any")
    return Question([unknown_like(wanted)] * back + [wanted], options, notes)


def orphan(name, margin, at):
    wanted, options, notes = wanted_pattern(name, margin, at)
    # The cells of the pattern depend on a ring round them and on nothing else, so of the ring's own next state nothing is asked.
    free = ["*'"] * (len(wanted[0]) + 2)
    later = [free] + [["*'"] + row + ["*'"] for row in wanted] + [free]
    return Question([unknown_like(later), later], options + ["--edge open"], notes)


def wanted_pattern(name, margin, at):
    """Returns the cells of the first picture of a file with dead ones round them, the options that it asks for, and notes."""
    try:
        with open(name, encoding="utf-8", errors="replace") as file:
            picture = pictures_of(file.read())[0]
        if not picture.rows or not picture.rows[0]:
            raise BadPicture("a picture without cells")
        rule = picture.known_rule()
        width, height = len(picture.rows[0]) + 2 * margin, len(picture.rows) + 2 * margin
        rows = placed(picture.rows, width, height, at or (margin, margin))
    except OSError as fault:
        raise BadQuestion(f"{name}: {fault.strerror}") from None
    except BadPicture as fault:
        raise BadQuestion(f"{name}: {fault}") from None
    return [[str(cell) for cell in row] for row in rows], [f"--rule {rule}"] if rule else [], picture.notes


def boxed(width, height, left, top, box_width, box_height):
    """Returns a generation that is unknown in a box and dead elsewhere."""
    column_in = lambda x: left <= x < left + box_width
    row_in = lambda y: top <= y < top + box_height
    return [["*" if column_in(x) and row_in(y) else "0" for x in range(width)] for y in range(height)]


def unknown_like(rows):
    return [["*"] * len(row) for row in rows]


def ways_of(question):
    """Returns in how many ways the question looks the same, one of which is as it stands."""
    moved = next((tuple(map(int, option.split(",")[1:])) for option in question.options if option.startswith("--period ")), ())
    height, width = len(question.generations[0]), len(question.generations[0][0])
    places = range(height * width)
    return len({tuple(places), *(tuple(image(motion, height, width, places)) for motion in same_motions(question.generations, shift=moved or (0, 0)))})


def images_notes(ways, images):
    """Returns what is said of a question that looks the same in so many ways, where one solution of each kind is asked for, and where all are."""
    if images:
        return [f"one solution of each kind is asked for, of up to {ways}" if ways > 1 else "it looks the same in no other way, so --images one changes nothing"]
    return [f"it looks the same in {ways} ways; --images one asks for one solution of each kind"] if ways > 1 else []


def test_limits(generations):
    """Refuses what is beyond the limits of search files."""
    count, height, width = len(generations), len(generations[0]), len(generations[0][0])
    if count > MOST_GENERATIONS:
        raise BadQuestion(f"{count} generations, more than {MOST_GENERATIONS}")
    if max(height, width) > MOST_ROWS:
        raise BadQuestion(f"{height} rows and {width} columns, more than {MOST_ROWS}")
    if count * height * width > MOST_CELLS:
        raise BadQuestion(f"{count * height * width} cells, more than {MOST_CELLS}")


def size(word):
    number = int(word)
    if number < 1:
        raise ValueError
    return number


def margin_size(word):
    number = int(word)
    if number < 0:
        raise ValueError
    return number


def move_word(word):
    right, down = map(int, word.split(","))
    return right, down


# The words of each kind of question behind its name.
BOX = (("width", "W", size), ("height", "H", size))
KINDS = {
    still: BOX,
    oscillator: (*BOX, ("period", "P", int)),
    rotor: (*BOX, ("period", "P", int), ("columns", "RW", size), ("rows", "RH", size)),
    spaceship: (*BOX, ("period", "P", int), ("right", "DX", int), ("down", "DY", int)),
    glide: (*BOX, ("later", "N", size), ("right", "DX", int)),
    copies: (*BOX, ("later", "N", size), ("moves", "X,Y", move_word)),
    eater: (*BOX, ("later", "N", size), ("name", "PICTURE", str), ("at", "X,Y", move_word)),
    torus: (*BOX, ("period", "P", int)),
    predecessor: (("name", "PICTURE", str),),
    orphan: (("name", "PICTURE", str),),
}


def question_of_words():
    """Returns the question that the words ask, and the file that it goes to, or None."""
    parser = argparse.ArgumentParser(description=__doc__, formatter_class=argparse.RawDescriptionHelpFormatter)
    kinds = parser.add_subparsers(dest="kind", required=True, metavar="|".join(kind.__name__ for kind in KINDS))
    for kind, operands in KINDS.items():
        words = kinds.add_parser(kind.__name__)
        # A move such as -1,0 is an operand, as -1 is.
        words._negative_number_matcher = re.compile(r"-\d+(,-?\d+)?$")
        for name, shown, read in operands:
            words.add_argument(name, metavar=shown, type=read, **({"nargs": "+"} if name == "moves" else {}))
        if kind in (predecessor, orphan):
            words.add_argument("--at", metavar="X,Y", type=place_word)
        if kind is predecessor:
            words.add_argument("--back", metavar="N", type=size, default=1)
        if kind is not torus:
            words.add_argument("--margin", metavar="N", type=margin_size, default=int(kind in (oscillator, rotor, spaceship, glide)) or 2 * (kind is eater))
        if kind in (still, oscillator, spaceship):
            words.add_argument("--band", metavar="N", type=margin_size)
            words.add_argument("--region", metavar="PICTURE")
        if kind in (oscillator, spaceship):
            words.add_argument("--fewest", choices=("phase",))
        words.add_argument("--images", choices=("one",))
        words.add_argument("-o", metavar="FILE", dest="out")
        words.set_defaults(ask=kind)
    values = vars(parser.parse_args())
    values.pop("kind")
    out, band, region, fewest, images = (values.pop(name, None) for name in ("out", "band", "region", "fewest", "images"))
    question = values.pop("ask")(**values)
    if band is not None:
        narrowed(question, lambda x, y: abs(x - y) <= band)
    if region is not None:
        cells = region_of(region)
        narrowed(question, lambda x, y: (x, y) in cells)
    if fewest:
        of_any_phase(question)
    ways = ways_of(question)
    if images:
        question.options.append("--images one")
    question.notes = [*question.notes, *images_notes(ways, images)]
    return question, out


def text_of(question):
    generations = "\n\n".join("\n".join(" ".join(row) for row in rows) for rows in question.generations)
    return ("#! " + " ".join(question.options) + "\n" if question.options else "") + generations + "\n"


def main():
    try:
        question, out = question_of_words()
        test_limits(question.generations)
        if out is None:
            print(text_of(question), end="")
        else:
            with open(out, "w", encoding="ascii") as file:
                file.write(text_of(question))
    except BadQuestion as fault:
        print(f"pose.py: {fault}", file=sys.stderr)
        sys.exit(2)
    except OSError as fault:
        print(f"pose.py: {fault.filename}: {fault.strerror}", file=sys.stderr)
        sys.exit(2)
    print("options:", " ".join(question.options) or "none", file=sys.stderr)
    for note in question.notes:
        print("note:", note, file=sys.stderr)


if __name__ == "__main__":
    ending.run(main, __doc__)
