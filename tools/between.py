#!/usr/bin/env python3
"""Says which rules between two have a solution of a small search file, by trying all of them over all histories.

    between.py SEARCH LOW HIGH [OPTION..]

LOW and HIGH are rules in Hensel notation, and the options those of solutions.py but `--rule`. Prints each rule that has a solution on a line,
as the names of the classes at which it gives 1 and the low rule doesn't, as `B3c S0`; a rule with none of them is `-`. It prints nothing where
none has one. With `--among=RULE` it says whether that rule is one of these: `yes` or `no`.
"""
import itertools

import ending
import open_formula
import solutions


class ByClasses(solutions.Problem):
    """A problem by a rule that is given by the neighbourhoods that it makes live."""

    def __init__(self, text, options, living):
        super().__init__(text, options)
        self.living = living
        self.grounds = [0]
        while len(self.grounds) < self.count:
            self.grounds.append(int((self.grounds[-1],) * 9 in living))

    def next(self, history, t, y, x):
        return int(tuple(self.at(history, t, y + j, x + i) for j in (-1, 0, 1) for i in (-1, 0, 1)) in self.living)


def living(rule):
    """The neighbourhoods at which a rule gives 1."""
    return {tuple(map(int, nine)) for name in rule for nine in open_formula.CLASSES[name]}


def has_solution(text, options, rule):
    problem = ByClasses(text, options, living(rule))
    return any(map(problem.is_solution, problem.histories([])))


def main():
    name, low, high, *options = ending.words(__doc__, "SEARCH", "LOW", "HIGH", "OPTION..")
    low, high = map(open_formula.rule_of, (low, high))
    among = [open_formula.rule_of(option[8:]) for option in options if option.startswith("--among=")]
    options = [option for option in options if not option.startswith("--among=")]
    with open(name, encoding="utf-8") as file:
        text = file.read()
    opened = [name for name in open_formula.CLASSES if name in high and name not in low]
    rules = [chosen for count in range(len(opened) + 1) for chosen in itertools.combinations(opened, count) if has_solution(text, options, low | set(chosen))]
    if among:
        print("yes" if any(low | set(chosen) == among[0] for chosen in rules) else "no")
        return
    for chosen in rules:
        print(*(f"{side}{digit}{letter}" for side, digit, letter in chosen) if chosen else "-")


if __name__ == "__main__":
    ending.run(main, __doc__)
