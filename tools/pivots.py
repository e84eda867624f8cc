#!/usr/bin/env python3
"""Writes small random formulas, each with a random proof that adds clauses by their pivots, and says what a checker has to answer.

    pivots.py FOLDER COUNT SEED [--long]

FOLDER gets the files N.cnf and N.lrat for N from 0 on. A line of the standard output has N and the answer. With --long a formula has each
clause over three or four variables, so that a refutation takes several lines; most lines are by unit propagation then, few have a slip,
and an id may be one that was taken out. The rules are written here once more, from docs/definitions.md alone; they share nothing with the
crates. Where a proof is accepted, all assignments are tried, and the script
ends with a failure if one satisfies the formula.
"""
import itertools
import os
import random
import sys

import ending


def walk(live, assumed, hints):
    """Follows hints: 'closed', 'stays' with what is taken as false, or the name of a fault with its number."""
    assumed = set(assumed)
    for hint in hints:
        if hint not in live:
            return "NoClause", hint
        left = set(live[hint]) - assumed
        if not left:
            return "closed", None
        if len(left) > 1:
            return "NotUnit", hint
        assumed.add(-left.pop())
    return "stays", assumed


def split(hints):
    """The hints before the first negative one, and the groups: the id of each with the hints behind it."""
    front, groups = [], []
    for hint in hints:
        if hint < 0:
            groups.append((-hint, []))
        else:
            (groups[-1][1] if groups else front).append(hint)
    return front, groups


def group_fault(live, pivot, assumed, group):
    number, hints = group
    if number not in live:
        return "NoClause", -number
    if -pivot not in live[number]:
        return "RatOther", number
    others = [literal for literal in live[number] if literal != -pivot]
    if any(-literal in assumed for literal in others):
        return None
    ends, found = walk(live, assumed | set(others), hints)
    if ends == "closed":
        return None
    return ("NoConflict", None) if ends == "stays" else (ends, found)


def fault_of(live, number, clause, hints):
    """What is wrong with an addition: its name and its number, or None."""
    if number in live:
        return "IdLive", number
    front, groups = split(hints)
    ends, found = walk(live, clause, front)
    if ends == "closed":
        return None
    if ends != "stays":
        return ends, found
    if not clause:
        return ("RatOther", groups[0][0]) if groups else ("NoConflict", None)
    pivot, grouped = clause[0], {number for number, _ in groups}
    for group in groups:
        fault = group_fault(live, pivot, found, group)
        if fault:
            return fault
    lacking = [other for other, lits in live.items() if -pivot in lits and other not in grouped]
    if lacking:
        return ("RatMissing", lacking[0]) if groups else ("NoConflict", None)
    return None


def answer(clauses, steps):
    """What a checker prints of a proof, whose steps are (id, clause, hints) or a list of ids that are deleted."""
    live = dict(enumerate(clauses, 1))
    for line, step in enumerate(steps, 1):
        if isinstance(step, list):
            for number in step:
                live.pop(number, None)
            continue
        fault = fault_of(live, *step)
        if fault:
            return " ".join(["refused:", fault[0], str(line)] + [str(fault[1])] * (fault[1] is not None))
        if not step[1]:
            return "accepted"
        live[step[0]] = step[1]
    return "refused: NoEmpty"


def propagated(live, assumed):
    """Hints that lead to a conflict, or None, and what is taken as false at the end."""
    assumed, hints = set(assumed), []
    while True:
        for number, clause in live.items():
            left = set(clause) - assumed
            if len(left) < 2 and not any(-literal in assumed for literal in left):
                hints.append(number)
                if not left:
                    return hints, assumed
                assumed.add(-left.pop())
                break
        else:
            return None, assumed


def hints_for(live, clause):
    """Hints that show the clause where some do: by unit propagation, or by its first literal."""
    hints, _ = propagated(live, clause)
    if hints is not None or not clause:
        return hints or []
    found = []
    for number, lits in live.items():
        if -clause[0] in lits:
            others = [literal for literal in lits if literal != -clause[0]]
            found.append(-number)
            if not any(-literal in clause for literal in others):
                found += propagated(live, set(clause) | set(others))[0] or []
    return found


def spoilt(draw, hints):
    """The hints with a slip in them."""
    hints = list(hints)
    place = draw.randrange(len(hints) + 1)
    kind = draw.randrange(4)
    if kind == 0 and hints:
        hints.pop(place - 1)
    elif kind == 1 and hints:
        hints[place - 1] *= -1
    elif kind == 2:
        hints.insert(place, draw.choice((1, -1)) * draw.randint(1, 12))
    else:
        draw.shuffle(hints)
    return hints


def drawn_clause(draw, count, least):
    chosen = draw.sample(range(1, count + 1), draw.randint(least, min(3, count)))
    return [draw.choice((v, -v)) for v in chosen]


def drawn_steps(draw, count, clauses):
    live, steps, number = dict(enumerate(clauses, 1)), [], len(clauses)
    for _ in range(draw.randint(1, 10)):
        if draw.random() < 0.1:
            gone = draw.sample(sorted(live), min(len(live), draw.randint(1, 2)))
            steps.append(gone)
            for other in gone:
                live.pop(other)
            continue
        number += 1
        refuted, _ = propagated(live, ())
        if refuted is not None:
            clause = []
        elif draw.random() < 0.4:
            count += 1
            clause = [draw.choice((count, -count))] + drawn_clause(draw, count - 1, 0)
        else:
            clause = drawn_clause(draw, count, 1)
        hints = hints_for(live, clause)
        if draw.random() < 0.12:
            hints = spoilt(draw, hints)
        elif fault_of(live, number, clause, hints) and draw.random() < 0.9:
            number -= 1
            continue
        steps.append((number, clause, hints))
        live[number] = clause
        if not clause:
            break
    return steps


def long_formula(draw):
    """Every clause over some variables, in any order."""
    count = draw.choice((3, 4))
    clauses = [list(signs) for signs in itertools.product(*((v, -v) for v in range(1, count + 1)))]
    draw.shuffle(clauses)
    return count, clauses


def long_addition(draw, count, live):
    """A clause that the live ones refute or that may stand beside them, and its hints, or None; few of them are by a pivot."""
    hints, _ = propagated(live, ())
    if hints is not None:
        return [], hints
    clause = drawn_clause(draw, count, 1)
    if draw.random() < 0.1:
        clause = [draw.choice((1, -1)) * (count + 1)] + clause[:2]
    hints, _ = propagated(live, clause)
    if hints is None and draw.random() < 0.05:
        hints = hints_for(live, clause)
    return None if hints is None else (clause, hints)


def long_steps(draw, count, clauses):
    live, free, steps = dict(enumerate(clauses, 1)), [], []
    for _ in range(200):
        if draw.random() < 0.03:
            steps.append([draw.choice(sorted(live))])
            free += steps[-1]
            live.pop(free[-1])
            continue
        clause, hints = long_addition(draw, count, live) or (None, None)
        if clause is None:
            continue
        number = max(free + list(live)) + 1
        if free and draw.random() < 0.3:
            number = free.pop(draw.randrange(len(free)))
        if draw.random() < 0.01:
            hints = spoilt(draw, hints)
        elif fault_of(live, number, clause, hints):
            continue
        steps.append((number, clause, hints))
        live[number] = clause
        count = max(map(abs, clause + [count]))
        # Lines behind the first empty clause aren't looked at.
        if not clause and draw.random() < 0.9:
            break
    return steps


def text(step):
    if isinstance(step, list):
        return " ".join(map(str, ["1 d"] + step + [0]))
    number, clause, hints = step
    return " ".join(map(str, [number] + clause + [0] + hints + [0]))


def is_satisfiable(count, clauses):
    for bits in itertools.product((False, True), repeat=count):
        if all(any(bits[abs(literal) - 1] == (literal > 0) for literal in clause) for clause in clauses):
            return True
    return False


def main():
    is_long = sys.argv[4:] == ["--long"]
    folder, number, seed = ending.words(__doc__, "FOLDER", "COUNT", "SEED", *["--long"] * is_long)[:3]
    draw = random.Random(ending.number(seed, "SEED"))
    for n in range(ending.number(number, "COUNT")):
        if is_long:
            count, clauses = long_formula(draw)
            steps = long_steps(draw, count, clauses)
        else:
            count = draw.randint(1, 6)
            clauses = [drawn_clause(draw, count, 1) for _ in range(draw.randint(1, 5 * count))]
            steps = drawn_steps(draw, count, clauses)
        said = answer(clauses, steps)
        if said == "accepted" and is_satisfiable(count, clauses):
            sys.exit(f"the rules accept a proof of a formula that can be satisfied: {clauses} {steps}")
        with open(os.path.join(folder, f"{n}.cnf"), "w", encoding="ascii") as file:
            print("p cnf", count, len(clauses), file=file)
            for clause in clauses:
                print(*clause, 0, file=file)
        with open(os.path.join(folder, f"{n}.lrat"), "w", encoding="ascii") as file:
            for step in steps:
                print(text(step), file=file)
        print(f"{n}\t{said}")


if __name__ == "__main__":
    ending.run(main, __doc__)
