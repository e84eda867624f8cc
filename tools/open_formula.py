#!/usr/bin/env python3
"""Prints the formula of a search file whose rule is left open between two rules, as DIMACS CNF.

    open_formula.py SEARCH LOW HIGH closed|open [--formula 1|2] [--try]

LOW and HIGH are rules in Hensel notation, as `B3/S23` or `B2-a/S12`. Form 2, by cover, is the default. With `--try` it prints nothing, but
tries all rules between and all histories, and all assignments: the cells and what the rule gives at the open classes are those of the
assignments that satisfy the formula, or the exit status is 1. It is for files of a few cells and classes.

It is written from docs/definitions.md alone, over refute.py beside it, and shares nothing with the crates.
"""
import argparse
import itertools
import re
import sys

import ending
import refute

# The letters of each count up to four, each with a neighbourhood of its class whose centre is dead.
LETTERS = {
    0: [("", 0)],
    1: [("c", 1), ("e", 2)],
    2: [("a", 3), ("c", 5), ("e", 10), ("i", 40), ("k", 33), ("n", 68)],
    3: [("a", 11), ("c", 69), ("e", 42), ("i", 7), ("j", 14), ("k", 98), ("n", 13), ("q", 70), ("r", 41), ("y", 97)],
    4: [
        ("a", 15), ("c", 325), ("e", 170), ("i", 45), ("j", 106), ("k", 99), ("n", 71), ("q", 102), ("r", 43), ("t", 105),
        ("w", 78), ("y", 101), ("z", 108),
    ],
}
SIDES = ("B", "S")


def images(nine):
    """What turns and the mirror make of nine bits."""
    found = set()
    for _ in range(4):
        nine = tuple(nine[6 - 3 * (k % 3) + k // 3] for k in range(9))
        found |= {nine, tuple(nine[3 * (k // 3) + 2 - k % 3] for k in range(9))}
    return found


def all_classes():
    """Side, count and letter of each class with its neighbourhoods, in their order."""
    for side in SIDES:
        for count in range(9):
            for letter, number in LETTERS[min(count, 8 - count)]:
                nine = refute.bits_of(number, 9)
                eight = [bit != (count > 4) for bit in nine[:4] + nine[5:]]
                yield (side, count, letter), images((*eight[:4], side == "S", *eight[4:]))


CLASSES = dict(all_classes())


def rule_of(text):
    """The names of the classes at which a rule gives 1."""
    found = set()
    for side, part in zip(SIDES, text.split("/")):
        for digit, minus, letters in re.findall(r"([0-8])(-?)([a-z]*)", part.lstrip("BSbs")):
            for _, count, letter in (name for name in CLASSES if name[0] == side):
                if count == int(digit) and (not letters or (letter in letters) != bool(minus)):
                    found.add((side, count, letter))
    return found


def successor_of(rule):
    live = set().union(*(CLASSES[name] for name in rule)) if rule else set()
    return lambda nine: tuple(nine) in live


class OpenFormula(refute.Formula):
    """The clauses of a search file whose rule is open between two."""

    def __init__(self, generations, low, high, closed, form=2):
        self.classes = [name for name in CLASSES if name in high and name not in low]
        successor = successor_of(low)
        loose = set().union(*(CLASSES[name] for name in self.classes)) if self.classes else set()
        rows = map(refute.bits_of, range(2**10))
        self.settled = [row for row in rows if row[:9] not in loose and successor(row[:9]) != row[9]]
        super().__init__(generations, successor, closed, form)

    def cubes_of(self, forbidden):
        return refute.full_cubes(forbidden) if self.form == 1 else refute.cover(forbidden)

    def push_transitions(self):
        self.base = self.count
        self.count += len(self.classes)
        self.cubes = self.cubes_of(self.settled)
        rows = [refute.bits_of(row, 11) for row in range(2**11)]
        self.tables = [self.cubes_of([row for row in rows if row[:9] in CLASSES[name] and row[9] != row[10]]) for name in self.classes]
        super().push_transitions()

    def push_cubes(self, inputs, cubes):
        super().push_cubes(inputs, cubes)
        for variable, table in enumerate(self.tables, self.base + 1):
            super().push_cubes([*inputs, variable], table)


def is_satisfied(clauses, values):
    return all(any(values[abs(literal) - 1] == (literal > 0) for literal in clause) for clause in clauses)


def try_all(generations, low, high, closed, form):
    """Whether the formula's assignments are the histories and rules for which a plain formula of each rule is satisfied."""
    formula = OpenFormula(generations, low, high, closed, form)
    found = {values for values in itertools.product((False, True), repeat=formula.count) if is_satisfied(formula.clauses, values)}
    wanted = set()
    for bits in itertools.product((False, True), repeat=len(formula.classes)):
        rule = low | {name for name, bit in zip(formula.classes, bits) if bit}
        plain = refute.Formula(generations, successor_of(rule), closed, 1)
        for cells in itertools.product((False, True), repeat=plain.count):
            if is_satisfied(plain.clauses, cells):
                wanted.add(cells + bits)
    return found == wanted, len(wanted)


def main():
    parser = argparse.ArgumentParser(description=__doc__, formatter_class=argparse.RawDescriptionHelpFormatter)
    parser.add_argument("search")
    parser.add_argument("low", type=rule_of)
    parser.add_argument("high", type=rule_of)
    parser.add_argument("edge", choices=("closed", "open"))
    parser.add_argument("--formula", type=int, choices=(1, 2), default=2)
    parser.add_argument("--try", action="store_true", dest="tries")
    words = parser.parse_args()
    if not words.low <= words.high:
        sys.exit("the low rule gives 1 where the high one gives 0")
    with open(words.search, encoding="ascii") as file:
        generations = refute.read_search_file(file.read())
    if words.tries:
        same, count = try_all(generations, words.low, words.high, words.edge == "closed", words.formula)
        print(f"{count} histories with a rule", file=sys.stderr)
        sys.exit(not same)
    formula = OpenFormula(generations, words.low, words.high, words.edge == "closed", words.formula)
    print(f"p cnf {formula.count} {len(formula.clauses)}")
    for clause in formula.clauses:
        print(*clause, 0)


if __name__ == "__main__":
    ending.run(main, __doc__)
