#!/usr/bin/env python3
"""Prints the formula of a search file as DIMACS CNF, for any SAT solver.

    formula.py SEARCH BIRTHS SURVIVALS closed|open [--symmetry NAME] [--period N] [--shift DX,DY] [--live T:LOW-HIGH,..]
        [--differ A,B] [--exact yes|no] [--but LIST] [--images all|one] [--formula 1|2]

BIRTHS and SURVIVALS are digits, or `-` for none. LOW and HIGH may be left out. Form 2, by cover, is the default. The clauses are made by refute.py beside this
file, which shares nothing with the crates.
"""
import ending
from refute import formula_of, parser_of


def main():
    formula = formula_of(parser_of(__doc__).parse_args())
    print(f"p cnf {formula.count} {len(formula.clauses)}")
    for clause in formula.clauses:
        print(*clause, 0)


if __name__ == "__main__":
    ending.run(main, __doc__)
