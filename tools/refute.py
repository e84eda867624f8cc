#!/usr/bin/env python3
"""Makes the formula of a small search file and an LRAT proof of its absence, by plain splitting.

    refute.py SEARCH BIRTHS SURVIVALS closed|open [--symmetry NAME] [--period N] [--shift DX,DY] [--live T:LOW-HIGH,..]
        [--differ A,B] [--exact yes|no] [--but LIST] [--images all|one] [--formula 1|2] [--define V,W]

BIRTHS and SURVIVALS are digits, or `-` for none. LOW and HIGH may be left out. Form 2 of the formula, by cover, is the default. With
V and W the proof begins with a variable of its own, which is true just where both of these are, and splits on it first. The proof goes to the standard output, the sizes of the formula to the
standard error. Where generations exist that fit the file, there is no proof and the exit status is 1.

It is written from docs/definitions.md alone and shares nothing with the crates, so that what both agree on is worth
something. It is slow: for files of up to about twenty free cells.
"""
import argparse
import re
import sys

import ending
from images import GENERATORS, MOTIONS, image, same_motions


def read_search_file(text):
    """Returns the generations, each a list of rows of words."""
    generations, rows = [], []
    for line in text.split("\n") + [""]:
        line = line.strip(" \t\r")
        if line.startswith("#"):
            continue
        if line:
            rows.append([word for word in re.split(r"[ \t,]+", line) if word])
        elif rows:
            generations.append(rows)
            rows = []
    return generations


INPUTS = 10


def bits_of(row, inputs=INPUTS):
    """The bits of a row of inputs: the first input has the greatest weight."""
    return tuple(bool(row >> (inputs - 1 - i) & 1) for i in range(inputs))


def full_cubes(forbidden):
    """A cube for each row: the bits that it asks for, by input."""
    return [dict(enumerate(row)) for row in forbidden]


def cover(forbidden):
    """Cubes that contain just these rows: each begins as a row that no cube before it has, and loses the inputs, from the
    first on, without which it still has such rows alone."""
    rows, chosen, covered = set(forbidden), [], set()
    for row in forbidden:
        if row in covered:
            continue
        inside, free = {row}, set()
        for i in range(len(row)):
            wider = inside | {member[:i] + (not member[i],) + member[i + 1 :] for member in inside}
            if wider <= rows:
                inside = wider
                free.add(i)
        covered |= inside
        chosen.append({i: row[i] for i in range(len(row)) if i not in free})
    return chosen


def primes(most):
    return [q for q in range(2, most + 1) if all(q % k for k in range(2, q))]


def opposite(place):
    """The negation of a literal or of a constant."""
    return not place if isinstance(place, bool) else -place


class Formula:
    """The clauses of a search file, in the order of docs/definitions.md."""

    def __init__(self, generations, successor, closed, form=2, symmetry="C1", period=None, shift=(0, 0), live=(), differ=None, exact=False, listed=(), one=False):
        self.generations = generations
        self.height, self.width = len(generations[0]), len(generations[0][0])
        self.count = len(generations) * self.height * self.width
        self.closed = closed
        forbidden = [row for row in map(bits_of, range(2**INPUTS)) if successor(row[:-1]) != row[-1]]
        self.form = form
        self.cubes = full_cubes(forbidden) if form == 1 else cover(forbidden)
        self.background = [False]
        for _ in generations[1:]:
            self.background.append(successor([self.background[-1]] * 9))
        self.clauses = []
        self.push_fixed()
        self.push_names()
        self.push_symmetry(symmetry)
        if period is not None:
            self.push_period(period, *shift)
        self.push_transitions()
        for generation, low, high in live:
            self.push_bound(generation, low, high)
        if differ is not None:
            self.push_difference(*differ)
        if exact and period is not None:
            for prime in primes(period):
                if all(number % prime == 0 for number in (period, *shift)):
                    self.push_unseen(period // prime, *(number // prime for number in shift))
        for pattern in listed:
            self.clauses.append([-k if live else k for k, live in enumerate(pattern, 1)])
        if one:
            for motion in same_motions(generations, symmetry, shift if period is not None else (0, 0), listed):
                self.push_comparison(motion)

    def variable(self, t, y, x):
        return 1 + x + self.width * (y + self.height * t)

    def cells(self):
        for t, rows in enumerate(self.generations):
            for y, row in enumerate(rows):
                for x, word in enumerate(row):
                    yield self.variable(t, y, x), word.rstrip("'")

    def push_fixed(self):
        for variable, word in self.cells():
            if word in ("0", "1"):
                self.clauses.append([variable if word == "1" else -variable])

    def push_names(self):
        firsts = {}
        for variable, word in self.cells():
            if word in ("0", "1", "*"):
                continue
            literal = -variable if word.startswith("-") else variable
            first = firsts.setdefault(word.lstrip("-"), literal)
            if first != literal:
                self.clauses += [[-first, literal], [first, -literal]]

    def push_clause(self, places):
        """Constants that are false are dropped, and one that is true leaves the clause out."""
        if not any(place is True for place in places):
            self.clauses.append([place for place in places if place is not False])

    def push_same(self, a, b):
        self.push_clause([opposite(a), b])
        self.push_clause([a, opposite(b)])

    def grid(self):
        return [(y, x) for y in range(self.height) for x in range(self.width)]

    def push_symmetry(self, symmetry):
        for generator in GENERATORS[symmetry]:
            for t in range(len(self.generations)):
                for y, x in self.grid():
                    to = MOTIONS[generator](self.height, self.width, y, x)
                    if to != (y, x):
                        self.push_same(self.place(t, y, x), self.place(t, *to))

    def push_period(self, period, dx, dy):
        for t in range(len(self.generations) - period):
            later = t + period
            if self.background[t] != self.background[later]:
                self.clauses.append([])
            for y, x in self.grid():
                self.push_same(self.place(t, y, x), self.place(later, y + dy, x + dx))
            for y, x in self.grid():
                if (y - dy, x - dx) not in self.grid():
                    self.push_same(self.place(t, y - dy, x - dx), self.place(later, y, x))

    def push_bound(self, generation, low, high):
        """Counts the live cells as far as the bound asks, one cell after another."""
        cells = [self.variable(generation, y, x) for y, x in self.grid()]
        most = len(cells) if high is None else min(high, len(cells))
        top = most + 1 if most < len(cells) else low
        base = self.count
        self.count += len(cells) * top

        def at_least(i, j):
            """That at least j of the first i cells are live."""
            return j == 0 if i == 0 or j == 0 else base + (i - 1) * top + j

        for i, cell in enumerate(cells, 1):
            for j in range(1, top + 1):
                here, more, fewer = at_least(i, j), at_least(i - 1, j), at_least(i - 1, j - 1)
                self.push_clause([opposite(more), here])
                self.push_clause([-cell, opposite(fewer), here])
                self.push_clause([-here, more, cell])
                self.push_clause([-here, more, fewer])
        if low > 0:
            self.clauses.append([at_least(len(cells), low)])
        if most < len(cells):
            self.clauses.append([-at_least(len(cells), most + 1)])

    def push_difference(self, first, second):
        base = self.count
        self.count += self.height * self.width
        for d, (y, x) in enumerate(self.grid(), base + 1):
            a, b = self.variable(first, y, x), self.variable(second, y, x)
            self.clauses += [[-d, a, b], [-d, -a, -b]]
        self.clauses.append(list(range(base + 1, self.count + 1)))

    def push_unseen(self, length, dx, dy):
        """Generation `length` isn't generation 0 moved: some place differs from where it comes from."""
        if self.background[0] != self.background[length]:
            return
        leaving = [((y, x), (y + dy, x + dx)) for y, x in self.grid()]
        entering = [((y - dy, x - dx), (y, x)) for y, x in self.grid() if (y - dy, x - dx) not in self.grid()]
        base = self.count
        self.count += len(leaving + entering)
        for d, (early, late) in enumerate(leaving + entering, base + 1):
            a, b = self.place(0, *early), self.place(length, *late)
            self.push_clause([-d, a, b])
            self.push_clause([-d, opposite(a), opposite(b)])
        self.clauses.append(list(range(base + 1, self.count + 1)))

    def push_comparison(self, motion):
        """Where a cell of generation 0 and its image first differ the cell is live. A variable says that none has differed so far."""
        cells = [self.variable(0, *place) for place in self.grid()]
        before = []
        for cell, to in zip(cells, image(motion, self.height, self.width, cells)):
            if cell != to:
                self.count += 1
                same = self.count
                self.clauses += [[*before, cell, -to], [*before, -to, same], [*before, cell, same]]
                before = [-same]

    def place(self, t, y, x):
        """A variable, or the constant of a place outside the grid."""
        if 0 <= y < self.height and 0 <= x < self.width:
            return self.variable(t, y, x)
        return self.background[t]

    def is_marked(self, t, y, x):
        inside = 0 <= y < self.height and 0 <= x < self.width
        return inside and self.generations[t][y][x].endswith("'")

    def push_transitions(self):
        ring = 1 if self.closed else 0
        for t in range(1, len(self.generations)):
            for y in range(-ring, self.height + ring):
                for x in range(-ring, self.width + ring):
                    if not self.is_marked(t, y, x):
                        self.push_transition(t, y, x)

    def push_transition(self, t, y, x):
        steps = (-1, 0, 1)
        inputs = [self.place(t - 1, y + dy, x + dx) for dy in steps for dx in steps]
        inputs.append(self.place(t, y, x))
        self.push_cubes(inputs, self.cubes)

    def push_cubes(self, inputs, cubes):
        """Of a cover, a clause that equals an earlier one of the same cubes is left out."""
        here = len(self.clauses)
        for cube in cubes:
            pairs = [(inputs[i], bit) for i, bit in cube.items()]
            if all(value == bit for value, bit in pairs if isinstance(value, bool)):
                clause = [-v if bit else v for v, bit in pairs if not isinstance(v, bool)]
                if self.form == 1 or clause not in self.clauses[here:]:
                    self.clauses.append(clause)


class Refutation:
    """A proof by splitting on the first open variable; each conflict adds the negation of its choices."""

    def __init__(self, formula):
        self.clauses = list(formula.clauses)
        self.variables = list(range(1, formula.count + 1))
        self.lines = []

    def push_line(self, clause, hints):
        self.clauses.append(clause)
        words = [len(self.clauses)] + clause + [0] + hints + [0]
        self.lines.append(" ".join(map(str, words)))

    def define(self, first, second):
        """A new variable that is true just where both are, split on before the others.

        No clause of the formula has it, so the first line has no group. Of the two others each has one, of the first
        line, where the negation of the clause's second literal stands.
        """
        new = len(self.variables) + 1
        self.push_line([new, -first, -second], [])
        both = -len(self.clauses)
        self.push_line([-new, first], [both])
        self.push_line([-new, second], [both])
        self.variables.insert(0, new)

    def propagate(self, choices):
        """Returns the values, the clause that is false or None, and the order and reasons of what follows."""
        values = {abs(literal): literal > 0 for literal in choices}
        reasons, order, grows = {}, [], True
        while grows:
            grows = False
            for index, clause in enumerate(self.clauses):
                if any(values.get(abs(literal)) == (literal > 0) for literal in clause):
                    continue
                free = {literal for literal in clause if abs(literal) not in values}
                if not free:
                    return values, index, order, reasons
                if len(free) == 1:
                    literal = free.pop()
                    values[abs(literal)] = literal > 0
                    reasons[abs(literal)] = index
                    order.append(abs(literal))
                    grows = True
        return values, None, order, reasons

    def push(self, choices, conflict, order, reasons):
        needed, used = {abs(literal) for literal in self.clauses[conflict]}, []
        for variable in reversed(order):
            if variable in needed:
                used.append(reasons[variable] + 1)
                needed |= {abs(literal) for literal in self.clauses[reasons[variable]]}
        self.push_line([-literal for literal in choices], used[::-1] + [conflict + 1])

    def refute(self, choices=()):
        values, conflict, order, reasons = self.propagate(choices)
        if conflict is None:
            split = next((v for v in self.variables if v not in values), None)
            if split is None or not all(self.refute((*choices, way)) for way in (split, -split)):
                return False
            _, conflict, order, reasons = self.propagate(choices)
        self.push(choices, conflict, order, reasons)
        return True


def pair(text):
    first, second = map(int, text.split(","))
    return first, second


def bounds(text):
    """The bounds of a text like 0:1-,2:-7: generation, low end, and high end or None."""
    found = []
    for entry in text.split(","):
        generation, ends = entry.split(":")
        low, high = ends.split("-")
        found.append((int(generation), int(low or 0), int(high) if high else None))
    return found


def patterns_in(name):
    """The patterns of a list, each its cells row by row."""
    with open(name, encoding="ascii") as file:
        return [[word == "1" for row in rows for word in row] for rows in read_search_file(file.read())]


def parser_of(description):
    """What reads the words that name a search file and the demands on it."""
    parser = argparse.ArgumentParser(description=description, formatter_class=argparse.RawDescriptionHelpFormatter)
    parser.add_argument("search")
    parser.add_argument("births")
    parser.add_argument("survivals")
    parser.add_argument("edge", choices=("closed", "open"))
    parser.add_argument("--symmetry", choices=GENERATORS, default="C1")
    parser.add_argument("--period", type=int)
    parser.add_argument("--shift", type=pair, default=(0, 0))
    parser.add_argument("--live", type=bounds, default=())
    parser.add_argument("--differ", type=pair)
    parser.add_argument("--exact", choices=("yes", "no"), default="no")
    parser.add_argument("--but", type=patterns_in, default=())
    parser.add_argument("--images", choices=("all", "one"), default="all")
    parser.add_argument("--formula", type=int, choices=(1, 2), default=2)
    return parser


def formula_of(words):
    """Returns the formula of the search file and the demands that the words name."""

    def successor(nine):
        neighbours = sum(nine) - nine[4]
        return str(neighbours) in (words.survivals if nine[4] else words.births)

    with open(words.search, encoding="ascii") as file:
        generations = read_search_file(file.read())
    demands = (words.symmetry, words.period, words.shift, words.live, words.differ, words.exact == "yes", words.but, words.images == "one")
    return Formula(generations, successor, words.edge == "closed", words.formula, *demands)


def main():
    parser = parser_of(__doc__)
    parser.add_argument("--define", type=pair)
    words = parser.parse_args()
    formula = formula_of(words)
    print(f"{formula.count} variables, {len(formula.clauses)} clauses", file=sys.stderr)
    refutation = Refutation(formula)
    if words.define is not None:
        refutation.define(*words.define)
    if not refutation.refute():
        sys.exit("there are generations that fit the file")
    print("\n".join(refutation.lines))


if __name__ == "__main__":
    ending.run(main, __doc__)
