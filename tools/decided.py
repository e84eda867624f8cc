#!/usr/bin/env python3
"""Compares the answers of `sat` on random formulas with those of trying all assignments.

    decided.py PROGRAM SEED COUNT FOLDER

PROGRAM is the built program; FOLDER gets the files. Each formula has at most 12 variables and is decided twice: with all clauses
kept and a budget of 3 to the number of variables, and with a budget of 9 to it, both at most 10,000,000. An assignment that is
printed has to satisfy the formula, and a proof has to be accepted by `lrat`. So it is with every formula of one variable and of two, as
sets of clauses in which no variable stands twice. At the end a formula of 200 variables that some
assignment satisfies has to be decided within a second. Ends with a failure where an answer differs.
"""
import itertools
import os
import random
import subprocess
import sys

import ending

MOST_BUDGET = 10_000_000


def formula():
    count = random.randint(1, 12)
    literal = lambda: random.choice([1, -1]) * random.randint(1, count)
    length = lambda: 0 if random.random() < 0.001 else random.randint(1, 3)
    return count, [[literal() for _ in range(length())] for _ in range(random.randint(0, 6 * count))]


def every_formula(count):
    """Yields each set of clauses over so many variables in which none stands twice in a clause."""
    clauses = [[lit for lit in signed if lit] for signed in itertools.product(*[(0, n, -n) for n in range(1, count + 1)])]
    for chosen in itertools.product([False, True], repeat=len(clauses)):
        yield count, list(itertools.compress(clauses, chosen))


def is_satisfiable(count, clauses):
    for values in itertools.product([False, True], repeat=count):
        if all(any(values[abs(lit) - 1] == (lit > 0) for lit in clause) for clause in clauses):
            return True
    return False


def is_model(text, count, clauses):
    numbers = [int(word) for line in text.splitlines()[1:] for word in line.split()[1:]]
    values = set(numbers)
    return [abs(n) for n in numbers] == list(range(1, count + 1)) + [0] and \
        all(any(lit in values for lit in clause) for clause in clauses)


def is_right(program, file, proof, options, count, clauses, satisfiable):
    ended = subprocess.run([program, "sat", file, proof] + options, capture_output=True, text=True)
    if satisfiable:
        return ended.returncode == 10 and is_model(ended.stdout, count, clauses)
    checked = subprocess.run([program, "lrat", file, proof], capture_output=True, text=True)
    return ended.returncode == 20 and ended.stdout == "s UNSATISFIABLE\n" and checked.stdout == "accepted\n"


def planted(file):
    """Writes a formula of 200 variables that a random assignment satisfies."""
    values = [random.choice([1, -1]) * n for n in range(1, 201)]
    clauses = []
    while len(clauses) < 700:
        clause = [random.choice([1, -1]) * n for n in random.sample(range(1, 201), 3)]
        if any(lit in values for lit in clause):
            clauses.append(clause)
    write(file, 200, clauses)
    return clauses


def write(file, variables, clauses):
    with open(file, "w") as text:
        text.write(f"p cnf {variables} {len(clauses)}\n")
        text.writelines(" ".join(map(str, clause + [0])) + "\n" for clause in clauses)


def main():
    program, seed, count, folder = ending.words(__doc__, "PROGRAM", "SEED", "COUNT", "FOLDER")
    random.seed(ending.number(seed, "SEED"))
    file, proof = os.path.join(folder, "formula"), os.path.join(folder, "proof")
    failed = 0
    chosen = (formula() for _ in range(ending.number(count, "COUNT")))
    for variables, clauses in itertools.chain(every_formula(1), every_formula(2), chosen):
        write(file, variables, clauses)
        satisfiable = is_satisfiable(variables, clauses)
        for options in (["--keep=all", f"--budget={min(3 ** variables, MOST_BUDGET)}"], [f"--budget={min(9 ** variables, MOST_BUDGET)}"]):
            if not is_right(program, file, proof, options, variables, clauses, satisfiable):
                print(f"decided: another answer to {variables} {clauses} with {options}", file=sys.stderr)
                failed = 1
    clauses = planted(file)
    try:
        ended = subprocess.run([program, "sat", file, proof], capture_output=True, text=True, timeout=1)
        is_found = ended.returncode == 10 and is_model(ended.stdout, 200, clauses)
    except subprocess.TimeoutExpired:
        is_found = False
    if not is_found:
        print("decided: 200 variables are not decided within a second", file=sys.stderr)
        failed = 1
    return failed


if __name__ == "__main__":
    ending.run(main, __doc__)
