#!/usr/bin/env python3
"""Says what a person may have mixed up where `lls` doesn't take a proof: another formula, a file of another kind, or one that isn't whole; and
in words which demand a pattern breaks that is judged.

    refused.py PROGRAM WORD ..

The WORDs are those of a command line of `lls` that has ended; PROGRAM prints a formula, or judges once more, where that is needed. Prints a line for each thing
that is seen, and nothing where none is, where the command checks no proof and judges no pattern, or where the files can't be read. `./lls` calls this.
"""
import re
import subprocess
import sys

import ending
import words as spoken

# a proof's first bytes and its last ones
LOOK = 4096
ADDITION = re.compile(rb"\s*([0-9]+)\s+(?!d\s)")
# an id, at once the 0 that ends its literals, hints, and the 0 that ends them
EMPTY = re.compile(rb"\s*[0-9]+\s+0(?:\s+-?[0-9]+)*\s+0\s*$")


def kind_of(start):
    """Says of a file's first bytes what else they are than a proof in text, or None."""
    if start.startswith(b"\x1f\x8b"):
        return "is compressed with gzip: `gzip -d` makes the text of it"
    if start.startswith(b"(\xb5/\xfd"):
        return "is compressed with zstd: `zstd -d` makes the text of it"
    if any(byte < 9 or byte > 126 for byte in start):
        return "is no text: binary DRAT or LRAT isn't read here"
    return None


def clauses_of(line):
    """Returns how many clauses a formula has whose header this is, or None."""
    header = re.match(rb"p\s+cnf\s+\d+\s+(\d+)", line)
    return int(header[1]) if header else None


def clauses_made(program, command, values, given):
    """Returns how many clauses the formula has that the words speak of, or None."""
    if command == "lrat":
        with open(values["formula"], "rb") as file:
            return next((count for line in file if (count := clauses_of(line)) is not None), None)
    if command != "check":
        return None
    options = [f"--{name}={text}" for name, (_, text) in given.items()]
    with subprocess.Popen([program, "cnf", values["search"], *options], stdin=subprocess.DEVNULL, stdout=subprocess.PIPE, stderr=subprocess.DEVNULL) as made:
        line = made.stdout.readline()
        made.kill()
    return clauses_of(line)


def ends_of(name):
    """Returns the first bytes of a file and the last ones."""
    with open(name, "rb") as file:
        start = file.read(LOOK)
        file.seek(0, 2)
        file.seek(max(0, file.tell() - LOOK))
        return start, file.read()


def place(t, y, x):
    ring = ", in the ring round the grid" if "-1" in (y, x) else ""
    return f"generation {t}, row {y}, column {x}, counted from 0{ring}"


# What each broken demand is, by its numbers.
BROKEN = {
    "Size": lambda: "the pattern and the search file have other numbers of generations, rows or columns",
    "Cell": lambda *at: f"{place(*at)}: the search file fixes this cell the other way",
    "Name": lambda *at: f"{place(*at)}: this cell isn't as the first cell of its name",
    "Symmetry": lambda *at: f"{place(*at)}: this cell isn't as its image under the symmetry",
    "Background": lambda t: f"all that lies outside of the grid isn't in generation {t} as it is a period later",
    "Moved": lambda *at: f"{place(*at)}: what is there isn't there again a period later, moved by the shift",
    "Rule": lambda *at: f"{place(*at)}: the rule makes another cell there",
    "Population": lambda t, live: f"generation {t} has {live} live cells, and --live asks for another number",
    "Same": lambda: "the two generations of --differ are equal",
    "Shorter": lambda t: f"the period isn't exact: generation {t} is generation 0 already, moved along the same line",
}


def demand_of(program, words):
    """Returns what demand the program finds broken, in words, or nothing."""
    said = subprocess.run([program, *words], stdin=subprocess.DEVNULL, capture_output=True, text=True, check=False).stdout
    name, *numbers = said.removeprefix("broken: ").split() or [""]
    return [BROKEN[name](*numbers)] if said.startswith("broken: ") and name in BROKEN else []


def notes_on(program, words):
    try:
        command, values = spoken.job(words)
        if command == "judge":
            return demand_of(program, words)
        if command not in ("check", "lrat", "opencheck", "trim"):
            return []
        name, given = values["proof"], spoken.scan(words, spoken.COMMANDS[command][1])[1]
        start, end = ends_of(name)
        kind = kind_of(start)
        if kind:
            return [f"{name} {kind}"]
        notes, first, clauses = [], ADDITION.match(start), clauses_made(program, command, values, given)
        if first and clauses is not None and int(first[1]) != clauses + 1:
            whose = "the file" if command == "lrat" else "the formula of these words"
            notes.append(f"the first step of {name} has the id {int(first[1])}, and {whose} has {clauses} clauses: is it the formula that the proof was found with?")
        last = end.rstrip(b"\n").rpartition(b"\n")[2]
        if not EMPTY.match(last):
            notes.append(f"the last line of {name} adds no empty clause: the log of an undecided search, or a file that was cut off")
        return notes
    except (OSError, KeyError, spoken.Fault):
        return []


def main():
    program, *words = ending.words(__doc__, "PROGRAM", "WORD ..")
    for note in notes_on(program, words):
        print("lls: note:", note)


if __name__ == "__main__":
    ending.run(main, __doc__)
