#!/usr/bin/env python3
"""Says whether a small search file has a solution, by trying all histories.

    solutions.py SEARCH [--rule=B../S..] [--edge=..] [--symmetry=..] [--period=P,DX,DY] [--live=..] [--differ=A,B] [--exact=yes|no] [--but=LIST]
        [--least|--most|--all]

Prints `yes` or `no`; with `--least` the fewest live cells that a solution has in generation 0, with `--most` the most, or `no`; with `--all` generation 0 of
each, once, as rows with an empty line between. It tries every first generation and every value of a marked cell; the other cells follow by the rule.
"""
import itertools

import ending

GENERATORS = {
    "C1": [],
    "C2": [lambda y, x, h, w: (h - 1 - y, w - 1 - x)],
    "C4": [lambda y, x, h, w: (x, h - 1 - y)],
    "D2-": [lambda y, x, h, w: (h - 1 - y, x)],
    "D2|": [lambda y, x, h, w: (y, w - 1 - x)],
    "D2\\": [lambda y, x, h, w: (x, y)],
    "D2/": [lambda y, x, h, w: (w - 1 - x, h - 1 - y)],
}
GENERATORS["D4+"] = GENERATORS["D2-"] + GENERATORS["D2|"]
GENERATORS["D4x"] = GENERATORS["D2\\"] + GENERATORS["D2/"]
GENERATORS["D8"] = GENERATORS["C4"] + GENERATORS["D2|"]


def generations_in(text):
    """The generations of a list, each its rows of 0 and 1."""
    parts = [[row for row in part.split("\n") if row and not row.startswith("#")] for part in text.split("\n\n")]
    return [[[int(word) for word in row.replace(",", " ").split()] for row in part] for part in parts if part]


class Problem:
    def __init__(self, text, words):
        options = dict(word[2:].split("=", 1) for word in words)
        births, survivals = options.get("rule", "B3/S23").split("/")
        self.rule = (set(map(int, births[1:])), set(map(int, survivals[1:])))
        self.closed = options.get("edge", "closed") == "closed"
        self.generators = GENERATORS[options.get("symmetry", "C1")]
        self.period = [int(n) for n in (options["period"] + ",0,0").split(",")[:3]] if "period" in options else None
        self.bounds = [bound.replace(":", "-").split("-") for bound in options["live"].split(",")] if "live" in options else []
        self.differ = [int(n) for n in options["differ"].split(",")] if "differ" in options else None
        self.exact = options.get("exact") == "yes"
        self.listed = []
        if "but" in options:
            with open(options["but"], encoding="ascii") as file:
                self.listed = generations_in(file.read())
        self.cells = [[row.replace(",", " ").split() for row in part.split("\n")] for part in text.strip().split("\n\n")]
        self.count, self.height, self.width = len(self.cells), len(self.cells[0]), len(self.cells[0][0])
        self.grounds = [0]
        while len(self.grounds) < self.count:
            last = self.grounds[-1]
            self.grounds.append(int(8 * last in self.rule[last]))

    def at(self, history, t, y, x):
        inside = 0 <= y < self.height and 0 <= x < self.width
        return history[t][y][x] if inside else self.grounds[t]

    def next(self, history, t, y, x):
        around = sum(self.at(history, t, y + j, x + i) for j in (-1, 0, 1) for i in (-1, 0, 1))
        middle = self.at(history, t, y, x)
        return int(around - middle in self.rule[middle])

    def marked(self, t, y, x):
        return self.cells[t][y][x].endswith("'")

    def histories(self, history):
        """All that begin so, with free values where a mark frees them."""
        t = len(history)
        if t == self.count:
            yield history
            return
        choices = [[0, 1] if t == 0 or self.marked(t, y, x) else [self.next(history, t - 1, y, x)]
                   for y in range(self.height) for x in range(self.width)]
        for values in itertools.product(*choices):
            rows = [values[k:k + self.width] for k in range(0, len(values), self.width)]
            if self.fits_cells(t, rows):
                yield from self.histories(history + [rows])

    def fits_cells(self, t, rows):
        kinds = [(word.rstrip("'"), rows[y][x]) for y, row in enumerate(self.cells[t]) for x, word in enumerate(row)]
        return all(word not in "01" or int(word) == value for word, value in kinds)

    def is_solution(self, history):
        places = [(y, x) for y in range(self.height) for x in range(self.width)]
        names = {}
        for t in range(self.count):
            for y, x in places:
                word = self.cells[t][y][x].rstrip("'")
                if word not in ("0", "1", "*"):
                    value = history[t][y][x] ^ word.startswith("-")
                    if names.setdefault(word.lstrip("-"), value) != value:
                        return False
        for t, generation in enumerate(history):
            for image in self.generators:
                for y, x in places:
                    other = image(y, x, self.height, self.width)
                    if generation[y][x] != generation[other[0]][other[1]]:
                        return False
        ring = [(y, x) for y in range(-1, self.height + 1) for x in range(-1, self.width + 1) if (y, x) not in places]
        for t in range(1, self.count):
            if self.closed and any(self.grounds[t] != self.next(history, t - 1, y, x) for y, x in ring):
                return False
        if self.period:
            length, dx, dy = self.period
            for t in range(self.count - length):
                if self.grounds[t] != self.grounds[t + length]:
                    return False
                for y, x in places:
                    if self.at(history, t + length, y + dy, x + dx) != history[t][y][x] or \
                            history[t + length][y][x] != self.at(history, t, y - dy, x - dx):
                        return False
        for t, low, high in self.bounds:
            population = sum(map(sum, history[int(t)]))
            if population < int(low or 0) or high and population > int(high):
                return False
        if self.differ and history[self.differ[0]] == history[self.differ[1]]:
            return False
        if self.exact and any(self.is_there(history, part) for part in self.parts()):
            return False
        return [list(row) for row in history[0]] not in self.listed

    def parts(self):
        """The shorter periods along the same line, by each divisor that is a prime."""
        length, dx, dy = self.period
        for divisor in range(2, length + 1):
            if length % divisor == dx % divisor == dy % divisor == 0 and all(divisor % k for k in range(2, divisor)):
                yield length // divisor, dx // divisor, dy // divisor

    def is_there(self, history, part):
        """Whether generation 0 is there again after a period, on the whole plane: far enough from the grid all is background."""
        length, dx, dy = part
        far = max(abs(dx), abs(dy)) + 1
        return all(self.at(history, 0, y, x) == self.at(history, length, y + dy, x + dx)
                   for y in range(-far, self.height + far) for x in range(-far, self.width + far))


def main():
    name, *options = ending.words(__doc__, "SEARCH", "OPTION..")
    ends = [option for option in options if option in ("--least", "--most", "--all")]
    with open(name, encoding="utf-8") as file:
        problem = Problem(file.read(), [option for option in options if option not in ends])
    solutions = filter(problem.is_solution, problem.histories([]))
    if ends == ["--all"]:
        found = dict.fromkeys(tuple(map(tuple, history[0])) for history in solutions)
        print("\n\n".join("\n".join(" ".join(map(str, row)) for row in rows) for rows in found))
    elif ends:
        end = min if ends == ["--least"] else max
        print(end((sum(map(sum, history[0])) for history in solutions), default="no"))
    else:
        print("yes" if any(True for _ in solutions) else "no")


if __name__ == "__main__":
    ending.run(main, __doc__)
