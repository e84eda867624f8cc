#!/usr/bin/env python3
"""Says how many clauses a search learns before it knows its answer, alone and as a crew.

    turns.py [--lls PROGRAM] [--crew K] [--seeds N] SEARCH [WORD ..]

That is the least `--budget` with which `lls search` of SEARCH and the WORDs, which are its options (`--period 3`), answers with a pattern or
an absence. It is found by doubling and halving, since what a search does depends on its budget in no other way. A crew learns one clause a
turn, so for a crew it is the number of its turns but the last. Prints the number for one searcher, which is a restless one, and with `--crew` a line for each
`--turns` from 0 to N - 1 (3 without `--seeds`) of K searchers.
"""
import os
import subprocess
import tempfile

import ending
from with_solver import LLS

MOST_BUDGET = 10_000_000


class NoAnswer(Exception):
    """What keeps a search from an answer."""


def is_decided(program, search, proof, words, budget):
    """Says whether the search with that budget ends with an answer."""
    done = subprocess.run(
        (program, "search", search, proof, *words, "--manner", "restless", "--budget", str(budget)), stdin=subprocess.DEVNULL, stdout=subprocess.DEVNULL, check=False
    )
    if done.returncode not in (10, 20, 30):
        raise NoAnswer(f"`lls search` ended with {done.returncode}")
    return done.returncode != 30


def least_budget(decides):
    """Returns the least number from 0 that decides, where each number from it on does."""
    most = 64
    while not decides(most):
        if most == MOST_BUDGET:
            raise NoAnswer("the greatest budget is spent")
        most = min(2 * most, MOST_BUDGET)
    least = 0
    while least < most:
        middle = (least + most) // 2
        if decides(middle):
            most = middle
        else:
            least = middle + 1
    return least


def main():
    program, crew = ending.option("--lls", LLS), ending.option("--crew")
    seeds = ending.number(ending.option("--seeds", "3"), "N")
    search, *words = ending.words(__doc__, "SEARCH", "WORD ..")
    ways = [("alone", [])]
    if crew is not None:
        ways += [(f"--crew {crew} --turns {seed}", ["--crew", crew, "--turns", str(seed)]) for seed in range(seeds)]
    try:
        with tempfile.TemporaryDirectory() as folder:
            proof = os.path.join(folder, "proof")
            for name, options in ways:
                least = least_budget(lambda budget, o=options: is_decided(program, search, proof, [*words, *o], budget))
                print(f"{name}: {least}", flush=True)
    except NoAnswer as fault:
        return f"turns.py: {fault}"
    return 0


if __name__ == "__main__":
    ending.run(main, __doc__)
