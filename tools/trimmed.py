#!/usr/bin/env python3
"""Trims an accepted LRAT proof by the rules, and compares what a trim gave with that.

    trimmed.py CNF PROOF
    trimmed.py CNF PROOF OUT

The first prints the trimmed proof. The second looks whether OUT is that, byte by byte, and prints `kept K of N`: K additions are left of the N up
to and with the empty clause; it ends with 1 where OUT differs. Where the empty clause rests on an addition that isn't by unit propagation both
print `refused: RatStep L`, L being the line of the first such, and OUT isn't read.

The rules are written here once more, from docs/definitions.md alone; they share nothing with the crates. That the proof is accepted is asked
and not looked at: a hint that names no clause ends the script.
"""
import sys

import ending


def clauses_of(path):
    """The clauses of a formula in DIMACS CNF."""
    with open(path, encoding="ascii") as file:
        words = [word for line in file if not line.lstrip().startswith(("c", "p")) for word in line.split()]
    clauses, clause = [], []
    for number in map(int, words):
        if number:
            clause.append(number)
        else:
            clauses.append(clause)
            clause = []
    return clauses


def steps_of(path):
    """The steps of a proof, each with its line: (line, id, literals, hints), or (line, ids) for a deletion."""
    with open(path, encoding="utf-8", errors="surrogateescape", newline="\n") as file:
        for line, text in enumerate(file, 1):
            words = text.split()
            if not words or words[0].startswith("c"):
                continue
            if words[1:2] == ["d"]:
                yield line, [int(word) for word in words[2:-1]]
                continue
            try:
                numbers = [int(word) for word in words]
                end = numbers.index(0, 1)
            except ValueError:
                sys.exit(f"trimmed.py: line {line} of {path} is no step")
            yield line, numbers[0], numbers[1:end], numbers[end + 1:-1]


def looked_at(live, literals, hints):
    """The hints up to the one at which unit propagation comes to a conflict, or None where it comes to none before the first negative one."""
    false = set(literals)
    for count, hint in enumerate(hints, 1):
        if hint < 0:
            return None
        if hint not in live:
            sys.exit(f"trimmed.py: the hint {hint} names no clause")
        left = set(live[hint][1]) - false
        if not left:
            return hints[:count]
        false.add(-left.pop())
    return None


def additions_of(clauses, steps):
    """The additions up to and with the empty clause: line, literals, and what the hints that are looked at name, or None by a pivot.

    A clause of the formula is named ('given', id), an addition ('added', its number from 0).
    """
    live = {number: (("given", number), clause) for number, clause in enumerate(clauses, 1)}
    additions = []
    for line, *step in steps:
        if len(step) == 1:
            for number in step[0]:
                live.pop(number, None)
            continue
        number, literals, hints = step
        front = looked_at(live, literals, hints)
        additions.append((line, literals, None if front is None else [live[hint][0] for hint in front]))
        if not literals:
            return additions
        live[number] = (("added", len(additions) - 1), literals)
    sys.exit("trimmed.py: the proof has no empty clause")


def needed_of(additions):
    """The numbers of the additions that the last one rests on, itself included."""
    needed, waiting = set(), [len(additions) - 1]
    while waiting:
        number = waiting.pop()
        if number not in needed:
            needed.add(number)
            waiting += [other for kind, other in additions[number][2] or [] if kind == "added"]
    return needed


def trimmed(clauses, additions, needed):
    """The lines of the needed additions, with ids from one more than the number of clauses on."""
    ids = {number: len(clauses) + place for place, number in enumerate(sorted(needed), 1)}
    for number, own in ids.items():
        _, literals, sources = additions[number]
        hints = [other if kind == "given" else ids[other] for kind, other in sources]
        yield " ".join(map(str, [own] + literals + [0] + hints + [0])) + "\n"


def main():
    cnf, proof, *out = ending.words(__doc__, "CNF", "PROOF", "OUT..")
    clauses = clauses_of(cnf)
    additions = additions_of(clauses, steps_of(proof))
    needed = needed_of(additions)
    pivots = [additions[number][0] for number in needed if additions[number][2] is None]
    if pivots:
        print(f"refused: RatStep {min(pivots)}")
        return 0
    lines = list(trimmed(clauses, additions, needed))
    if not out:
        sys.stdout.writelines(lines)
        return 0
    with open(out[0], encoding="utf-8", errors="surrogateescape", newline="\n") as file:
        found = file.readlines()
    if found != lines:
        at = next((n for n, (one, other) in enumerate(zip(found, lines), 1) if one != other), min(len(found), len(lines)) + 1)
        print(f"trimmed.py: {out[0]} isn't the trimmed proof: see its line {at}", file=sys.stderr)
        return 1
    print(f"kept {len(needed)} of {len(additions)}")
    return 0


if __name__ == "__main__":
    ending.run(main, __doc__)
