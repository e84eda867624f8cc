#!/usr/bin/env python3
"""Writes random problems: search files, and the words that ask for their demands.

    problems.py SEED COUNT FOLDER [--same]

With --same the files look the same in some way, or nearly so: their cells are the same behind a turn or mirror of the grid, which
may exchange names. For each K below COUNT, FOLDER gets K.lls, a search file; K.words, the options of `lls`, one word a line; K.script, the
words of formula.py behind the search file, one a line; K.form, the option that names a form of the formula, for both, or
nothing; K.crew, the options of a search by several searchers, or nothing; and K.list, patterns of the grid's size, perhaps none, which both
lists of words may name. Rules are in B/S notation, and every demand fits its file.
"""
import os
import random
import sys

import ending
from images import EXCHANGING, MOTIONS

SYMMETRIES = ["C1", "C2", "D2-", "D2|", "D4+"]
SQUARE = SYMMETRIES + ["C4", "D2\\", "D2/", "D4x", "D8"]


def cell(names):
    word = random.choice(["*"] * 5 + ["0", "1", "name", "name"])
    if word == "name":
        word = random.choice(["", "-"]) + random.choice(names)
    return word + random.choice(["", "", "", "'"])


def bound(generations, size):
    low = random.choice(["", str(random.randint(0, size))])
    high = random.choice(["", str(random.randint(int(low or 0), size + 2))])
    return f"{random.randrange(generations)}:{low}-{high}"


def problem(exact):
    generations, height = random.randint(1, 4), random.randint(1, 3)
    width = height if random.random() < 0.5 else random.randint(1, 3)
    names = random.sample(["a", "b", "c3", "xY9"], random.randint(1, 3))
    rows = lambda: "\n".join(" ".join(cell(names) for _ in range(width)) for _ in range(height))
    text = "\n\n".join(rows() for _ in range(generations)) + "\n"
    births = "".join(d for d in "012345678" if random.random() < 0.3)
    survivals = "".join(d for d in "012345678" if random.random() < 0.3)
    edge = random.choice(["closed", "open"])
    words = [f"--rule=B{births}/S{survivals}", f"--edge={edge}"]
    script = [births or "-", survivals or "-", edge]
    if random.random() < 0.6:
        symmetry = random.choice(SQUARE if height == width else SYMMETRIES)
        words.append(f"--symmetry={symmetry}")
        script.append(f"--symmetry={symmetry}")
    if generations > 1 and random.random() < 0.6:
        period, shift = random.randint(1, generations - 1), (random.randint(-2, 2), random.randint(-2, 2))
        words.append(f"--period={period},{shift[0]},{shift[1]}")
        script += [f"--period={period}", f"--shift={shift[0]},{shift[1]}"]
        words += exact
        script += exact
    if random.random() < 0.6:
        bounds = ",".join(bound(generations, height * width) for _ in range(random.randint(1, 3)))
        words.append(f"--live={bounds}")
        script.append(f"--live={bounds}")
    if random.random() < 0.6:
        pair = (random.randrange(generations), random.randrange(generations))
        words.append(f"--differ={pair[0]},{pair[1]}")
        script.append(f"--differ={pair[0]},{pair[1]}")
    form = random.choice([[], ["--formula=1"], ["--formula=2"]])
    return text, words, script, form


def crew(choose):
    """The options of several searchers, or none; drawn by themselves, so that the problems stay what they are."""
    searchers, seed = choose.randint(1, 16), choose.randrange(2**64)
    return choose.choice([[], [f"--crew={searchers}"], [f"--crew={searchers}", f"--turns={seed}"]])


def exact(choose):
    """Whether a period has to be exact; drawn by itself too."""
    return choose.choice([[], ["--exact=yes"], ["--exact=yes"], ["--exact=no"]])


def patterns(text, choose):
    """A few patterns of a search file's size; drawn by itself too. None is named where there is no `--but`."""
    rows = text.split("\n\n")[0].strip().split("\n")
    pattern = lambda: "\n".join(" ".join(choose.choice("01") for _ in row.split()) for row in rows)
    return "\n\n".join(pattern() for _ in range(choose.choice([0, 1, 1, 2, 5, 40])))


def rows_of(text):
    return [[line.split() for line in rows.split("\n")] for rows in text.strip().split("\n\n")]


def text_of(generations):
    return "\n\n".join("\n".join(map(" ".join, rows)) for rows in generations) + "\n"


def made_same(text, words, script, listed, choose):
    """The same behind a motion, or nearly so: a cell's word stands at all places where the motion takes it, and names there may be
    others at every step; each pattern stands in the list as the motion turns it too; and most shifts and symmetries are left out."""
    generations = rows_of(text)
    height, width = len(generations[0]), len(generations[0][0])
    motion = choose.choice([motion for motion in MOTIONS if height == width or motion not in EXCHANGING])
    to = {(y, x): MOTIONS[motion](height, width, y, x) for y in range(height) for x in range(width)}
    others = choose.random() < 0.5
    for rows in generations:
        for first in to:
            place, step = first, 0
            while (place := to[place]) > first:
                step += 1
                word, mark = rows[first[0]][first[1]].rstrip("'"), "'" * rows[first[0]][first[1]].endswith("'")
                named = others and word not in ("0", "1", "*")
                rows[place[0]][place[1]] = word + (f"s{step}" if named else "") + mark
    patterns = rows_of(listed) if listed.strip() else []
    for pattern in patterns:
        turned = [[pattern[y][x] for y, x in (to[place, k] for k in range(width))] for place in range(height)]
        if turned not in patterns:
            patterns.append(turned)
    if choose.random() < 0.7:
        drawn = ("--symmetry=", "--shift=")
        words, script = ([word for word in list if not word.startswith(drawn)] for list in (words, script))
        words = [word.split(",")[0] if word.startswith("--period=") else word for word in words]
    return text_of(generations), words, script, text_of(patterns) if patterns else ""


def lines(words):
    return "".join(f"{word}\n" for word in words)


def main():
    same = "--same" in sys.argv
    sys.argv = [word for word in sys.argv if word != "--same"]
    seed, count, folder = ending.words(__doc__, "SEED", "COUNT", "FOLDER")
    random.seed(ending.number(seed, "SEED"))
    choose, exactly, other = (random.Random(ending.number(seed, "SEED")) for _ in range(3))
    turning = random.Random(ending.number(seed, "SEED"))
    for k in range(ending.number(count, "COUNT")):
        text, words, script, form = problem(exact(exactly))
        listed = patterns(text, other)
        if same:
            text, words, script, listed = made_same(text, words, script, listed, turning)
        if listed:
            path = os.path.join(folder, f"{k}.list")
            words, script = [*words, f"--but={path}"], [*script, f"--but={path}"]
        contents = text, *map(lines, (words, script, form, crew(choose))), listed + "\n"
        for name, content in zip(("lls", "words", "script", "form", "crew", "list"), contents):
            with open(os.path.join(folder, f"{k}.{name}"), "w") as file:
                file.write(content)


if __name__ == "__main__":
    ending.run(main, __doc__)
