#!/usr/bin/env python3
"""Writes small random formulas, each with a random proof without hints, and says what `lls-hints` has to answer.

    lemmas.py FOLDER COUNT SEED

FOLDER gets the files N.cnf, N.drat, the proof as text, and N.bytes, the same proof in bytes, for N from 0 on. A line of the standard output
has N and the answer: `hinted`, or `refused: ` with the first lemma that stands neither by unit propagation nor by its first literal, or that
there is no empty clause. All clauses are gone through until nothing new follows; nothing is watched, sorted or looked up by a hash. Where
the answer is `hinted` all assignments are tried, and the script ends with a failure if one satisfies the formula. The last N is `pigeons`: seven
of them don't fit into six holes, by a short proof that stands on first literals.
"""
import itertools
import os
import random

import ending


def forced(clauses, true):
    """What unit propagation makes true, or None where it comes to a conflict."""
    true = set(true)
    while True:
        before = len(true)
        for clause in clauses:
            left = {literal for literal in clause if -literal not in true}
            if not left:
                return None
            if len(left) == 1:
                true |= left
        if len(true) == before:
            return true


def is_tautology(clause):
    return any(-literal in clause for literal in clause)


def is_implied(clauses, lemma):
    return is_tautology(lemma) or forced(clauses, {-literal for literal in lemma}) is None


def stands_by_first(clauses, lemma):
    """Whether each resolvent on the first literal is implied, as a checker of LRAT looks at it."""
    if not lemma:
        return False
    negated = {-literal for literal in lemma}
    for clause in clauses:
        if -lemma[0] in clause:
            rest = {-literal for literal in clause if literal != -lemma[0]}
            if any(literal in lemma for literal in rest):
                continue
            if forced(clauses, negated | rest) is not None:
                return False
    return True


def stands(clauses, lemma):
    return is_implied(clauses, lemma) or stands_by_first(clauses, lemma)


def answer(formula, lemmas):
    """What comes of the lemmas, each a pair of whether it is deleted and its literals. A clause that holds for any values is never live."""
    live, units = [frozenset(clause) for clause in formula if not is_tautology(clause)], set()
    for line, (is_deletion, lemma) in enumerate(lemmas, 1):
        clauses = live + [frozenset({unit}) for unit in units]
        at_zero = forced(clauses, ())
        if at_zero is None:
            return "hinted"
        # What holds for good stays so, whatever is deleted.
        units = at_zero
        if is_deletion and frozenset(lemma) in live:
            live.remove(frozenset(lemma))
        elif not is_deletion and not stands(clauses, lemma):
            return f"refused: NotImplied {line}"
        elif not is_deletion and not is_tautology(lemma):
            live.append(frozenset(lemma))
    return "hinted" if forced(live + [frozenset({unit}) for unit in units], ()) is None else "refused: NoEmpty"


def drawn_clause(draw, count, least):
    chosen = [draw.randint(1, count) for _ in range(draw.randint(least, 3))]
    return [draw.choice((v, -v)) for v in chosen]


def drawn(draw):
    """A formula of few variables, most of them without a solution, and lemmas most of which stand."""
    variables = count = draw.randint(2, 4)
    formula = [drawn_clause(draw, count, 1) for _ in range(draw.randint(3, 4 * count))]
    live, lemmas = [clause for clause in formula if not is_tautology(clause)], []
    for _ in range(draw.randint(0, 12)):
        if live and draw.random() < 0.2:
            gone = draw.choice(live)
            lemmas.append((True, draw.sample(gone, len(gone))))
        elif draw.random() < 0.05:
            lemmas.append((True, drawn_clause(draw, count, 1)))
        else:
            lemma = drawn_clause(draw, count, 1)
            if draw.random() < 0.3:
                count += 1
                lemma = [draw.choice((count, -count)), *lemma[:2]]
            if stands(live, lemma) or draw.random() < 0.05:
                lemmas.append((False, lemma))
                live += [] if is_tautology(lemma) else [lemma]
    if draw.random() < 0.5:
        lemmas.append((False, []))
    return variables, formula, lemmas


def pigeons(holes):
    """That one more pigeon than holes doesn't fit, and a short proof that leaves out one hole and one pigeon after another (Cook, A short
    proof of the pigeon hole principle using extended resolution, 1976), with lemmas that nothing rests on, and deletions."""
    names = {}

    def sits(level, pigeon, hole):
        return names.setdefault((level, pigeon, hole), len(names) + 1)

    formula = [[sits(holes, pigeon, hole) for hole in range(holes)] for pigeon in range(holes + 1)]
    formula += [[-sits(holes, a, hole), -sits(holes, b, hole)] for hole in range(holes) for b in range(holes + 1) for a in range(b)]
    count, proof = len(names), []
    for k in range(holes, 1, -1):
        # In the smaller question a pigeon sits in a hole where it did, or where it sat in the last hole and the last pigeon here.
        for pigeon, hole in itertools.product(range(k), range(k - 1)):
            new, old, aside, last = sits(k - 1, pigeon, hole), sits(k, pigeon, hole), sits(k, pigeon, k - 1), sits(k, k, hole)
            proof += [(False, lemma) for lemma in ([new, -old], [new, -aside, -last], [-new, old, aside], [-new, old, last])]
            # Nothing rests on this one.
            proof.append((False, [sits("aside", k, (pigeon, hole)), -new]))
        proof += [(False, [sits(k - 1, pigeon, hole) for hole in range(k - 1)]) for pigeon in range(k)]
        for hole, b in itertools.product(range(k - 1), range(k)):
            for a in range(b):
                both = [-sits(k - 1, a, hole), -sits(k - 1, b, hole)]
                step = [*both, sits(k, a, hole)]
                proof += [(False, step), (False, both), (True, step)]
    proof.append((False, []))
    return count, formula, proof


def number_in_bytes(number):
    low = bytearray()
    while number > 127:
        low.append(number % 128 + 128)
        number //= 128
    return bytes(low) + bytes([number])


def in_bytes(lemmas):
    literals = lambda lemma: b"".join(number_in_bytes(2 * abs(literal) + (literal < 0)) for literal in lemma)
    return b"".join((b"d" if is_deletion else b"a") + literals(lemma) + b"\0" for is_deletion, lemma in lemmas)


def in_text(lemmas):
    return "".join(" ".join(["d"] * is_deletion + [*map(str, lemma), "0"]) + "\n" for is_deletion, lemma in lemmas)


def has_solution(count, formula):
    return any(
        all(any(signs[abs(literal) - 1] == (literal > 0) for literal in clause) for clause in formula)
        for signs in itertools.product((False, True), repeat=count)
    )


def write(folder, name, variables, formula, lemmas):
    clauses = "".join(f"{' '.join(map(str, [*clause, 0]))}\n" for clause in formula)
    for kind, text in (
        ("cnf", f"p cnf {variables} {len(formula)}\n{clauses}".encode()),
        ("drat", in_text(lemmas).encode()),
        ("bytes", in_bytes(lemmas)),
    ):
        with open(os.path.join(folder, f"{name}.{kind}"), "wb") as file:
            file.write(text)


def main():
    folder, count, seed = ending.words(__doc__, "FOLDER", "COUNT", "SEED")
    draw = random.Random(ending.number(seed, "SEED"))
    for n in range(ending.number(count, "COUNT")):
        variables, formula, lemmas = drawn(draw)
        found = answer(formula, lemmas)
        if found == "hinted" and has_solution(variables, formula):
            return f"lemmas.py: the formula {n} has a solution"
        write(folder, n, variables, formula, lemmas)
        print(n, found, sep="\t")
    write(folder, "pigeons", *pigeons(6))
    print("pigeons", "hinted", sep="\t")
    return 0


if __name__ == "__main__":
    ending.run(main, __doc__)
