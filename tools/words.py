#!/usr/bin/env python3
"""Says what a command line of `lls` asks for, or its first fault.

    words.py [WORD..]
    words.py --random COUNT SEED

The first form prints the job of the words behind the program's name, or `lls: words: ` and the fault. The second prints COUNT
lines, each an answer, a tab and a command line whose words are quoted for a shell; the answer is `ok` or the fault. Names of
files in right ones are in a folder that isn't there, so that the program can neither read nor make one.

It is written from docs/formats.md, and shares nothing with the program: lines that it makes are given to both.
"""
import random
import re
import shlex
import sys

import ending

DEMANDS = ["edge", "symmetry", "period", "exact", "live", "differ", "but"]
PROBLEM = ["rule"] + DEMANDS
FORMED = PROBLEM + ["images", "formula"]
# a problem whose rule is left open between two
OPEN = ["low", "high"] + DEMANDS + ["formula"]
EFFORT = ["budget", "keep", "manner", "first"]
CREW = ["crew", "turns"]
COMMANDS = {
    "check": (["search", "proof"], FORMED + ["as"]),
    "search": (["search", "proof"], FORMED + EFFORT + ["as"] + CREW),
    "judge": (["search", "pattern"], PROBLEM + ["as"]),
    "cnf": (["search"], FORMED + ["as"]),
    "sat": (["formula", "proof"], EFFORT),
    "lrat": (["formula", "proof"], []),
    "rule": (["text"], []),
    "make": (["seed", "size", "search", "proof"], []),
    "least": (["search", "proof"], FORMED + EFFORT + ["as"]),
    "most": (["search", "proof"], FORMED + EFFORT + ["as"]),
    "open": (["search", "proof"], OPEN + EFFORT + ["as"]),
    "opencheck": (["search", "proof"], OPEN + ["as"]),
    "trim": (["formula", "proof", "output"], []),
}
# the operands that are written, none of which may have the name of a file before it
OUTPUTS = {"search": ["proof"], "sat": ["proof"], "make": ["search", "proof"], "least": ["proof"], "most": ["proof"], "open": ["proof"], "trim": ["output"]}
# the options whose values are rule texts
RULES = ("rule", "low", "high")
LIFE = "B3/S23"
# the numbers that may be said
RANGES = {"budget": (0, 10_000_000), "crew": (1, 16), "turns": (0, 2**64 - 1), "first": (0, 2**64 - 1), "seed": (0, 2**64 - 1), "size": (1, 64)}
# the operands that are no names of files
VALUES = {"text": "rule", "seed": "seed", "size": "size"}
CHOICES = {
    "edge": ["closed", "open"],
    "symmetry": ["C1", "C2", "C4", "D2-", "D2|", "D2\\", "D2/", "D4+", "D4x", "D8"],
    "exact": ["yes", "no"],
    "images": ["all", "one"],
    "formula": ["1", "2"],
    "keep": ["all", "half"],
    "manner": ["restless", "steady", "both"],
    "as": ["rows", "rle"],
}
# Hensel's letters by the number of live neighbours
LETTERS = ["", "ce", "aceikn", "aceijknqry", "aceijknqrtwyz", "aceijknqry", "aceikn", "ce", ""]


class Fault(Exception):
    """The first fault of a command line."""


def number(text, low, high):
    """The number that a text writes in at most twenty digits, where it lies between the two."""
    if not re.fullmatch("[0-9]{1,20}", text) or not low <= int(text) <= high:
        raise ValueError(text)
    return int(text)


def shift(text):
    return -number(text[1:], 0, 64) if text[:1] == "-" else number(text, 0, 64)


def period(text):
    parts = text.split(",")
    if len(parts) == 1:
        return (number(text, 1, 63), 0, 0)
    if len(parts) != 3:
        raise ValueError(text)
    return (number(parts[0], 1, 63), shift(parts[1]), shift(parts[2]))


def bound(text):
    found = re.fullmatch("([0-9]+):([0-9]*)-([0-9]*)", text)
    if not found:
        raise ValueError(text)
    generation, low, high = found.groups()
    return (
        number(generation, 0, 63),
        number(low, 0, 8192) if low else 0,
        number(high, 0, 8192) if high else None,
    )


def generations(text):
    first, second = text.split(",")
    return (number(first, 0, 63), number(second, 0, 63))


def side_fault(side, start):
    """The first fault of one side of a rule text, whose first byte stands in this column."""
    seen, count, letters = set(), None, None
    for at, char in enumerate(side):
        column = start + at
        if char in "012345678":
            if char in seen:
                return ("RepeatedDigit", column)
            seen.add(char)
            count, letters = int(char), ""
        elif char == "-" and count is not None and side[at - 1] == str(count):
            if not re.match("[a-z]", side[at + 1 :]):
                return ("NoLetters", column)
        elif not re.fullmatch("[a-z]", char):
            return ("Stray", column)
        elif count is None or char not in LETTERS[count]:
            return ("BadLetter", column)
        elif char in letters:
            return ("RepeatedLetter", column)
        else:
            letters += char
    return None


def rule_fault(text):
    """The first fault of a rule text, and its column, which counts bytes."""
    text = text.encode(errors="surrogateescape").decode("latin-1")
    if text[:1] in ("B", "b"):
        birth = re.match("[^/Ss]*", text[1:]).group()
        fault = side_fault(birth, 2)
        column = 2 + len(birth)
        if not fault and text[column - 1 : column] == "/":
            column += 1
        if not fault and text[column - 1 : column] not in ("S", "s"):
            fault = ("Stray", column)
        return fault or side_fault(text[column:], column + 1)
    survival, slash, birth = text.partition("/")
    fault = side_fault(survival, 1)
    if not fault and not slash:
        fault = ("Stray", len(text) + 1)
    return fault or side_fault(birth, len(survival) + 2)


def rule_sides(text):
    """The births and the survivals of a rule text without a fault: each a set of counts, with a letter where the count has letters."""
    if text[:1] in ("B", "b"):
        birth, survival = re.fullmatch("[Bb]([^/Ss]*)/?[Ss](.*)", text).groups()
    else:
        survival, _, birth = text.partition("/")
    sides = []
    for side in (birth, survival):
        named = set()
        for count, minus, letters in re.findall("([0-8])(-?)([a-z]*)", side):
            every = set(LETTERS[int(count)]) or {""}
            named |= {(count, letter) for letter in (every - set(letters) if minus or not letters else letters)}
        sides.append(named)
    return sides


def live_nines(text):
    """The neighbourhoods of a rule text without a fault at which a cell lives on, as numbers."""
    # only a rule that is left open needs the classes' neighbourhoods
    import open_formula

    sides = dict(zip(open_formula.SIDES, rule_sides(text)))
    found = set()
    for (side, count, letter), nines in open_formula.CLASSES.items():
        if (str(count), letter) in sides[side]:
            found |= {sum(256 >> k for k, bit in enumerate(nine) if bit) for nine in nines}
    return found


def between(low, high):
    """Tests whether two rules leave something between them, and at the neighbourhoods of nine equal cells nothing."""
    low, high = live_nines(low), live_nines(high)
    if low - high:
        raise Fault(f"RulesCross {min(low - high)}")
    for nine in (0, 511):
        if (nine in low) != (nine in high):
            raise Fault(f"LooseBackground {nine}")


def value(place, option, text):
    """What the value of an option or an operand says."""
    if option == "but":
        return text
    if option in RULES:
        fault = rule_fault(text)
        if fault:
            raise Fault(f"{fault[0]} {place} {fault[1]}")
        return text
    try:
        if option in CHOICES:
            return CHOICES[option][CHOICES[option].index(text)]
        if option == "period":
            return period(text)
        if option == "live":
            return [bound(part) for part in text.split(",")]
        if option == "differ":
            return generations(text)
        return number(text, *RANGES[option])
    except ValueError:
        raise Fault(f"BadValue {place}") from None


def is_plain(word):
    return word != "" and word[0] != "-"


def scan(words, options):
    """The operands and the options that are given, each with its place."""
    operands, given, at = [], {}, 1
    while at < len(words):
        word, place = words[at], at + 1
        at += 1
        if is_plain(word):
            operands.append((place, word))
            continue
        if not word.startswith("--") or word == "--":
            raise Fault(f"BadWord {place}")
        name, equals, text = word[2:].partition("=")
        if name not in options:
            raise Fault(f"UnknownOption {place}")
        if name in given:
            raise Fault(f"RepeatedOption {place}")
        if not equals:
            text = words[at] if at < len(words) else ""
            at += 1
        if not is_plain(text):
            raise Fault(f"MissingValue {place}")
        given[name] = (place, text)
    return operands, given


def job(words):
    """The command that words name, and the values of its operands and options."""
    if not words:
        raise Fault("NoCommand")
    if words[0] not in COMMANDS:
        raise Fault("UnknownCommand")
    names, options = COMMANDS[words[0]]
    operands, given = scan(words, options)
    if len(operands) != len(names):
        raise Fault(f"Operands {len(names)} {len(operands)}")
    values = {name: value(place, name, text) for name, (place, text) in given.items()}
    for name, (place, text) in zip(names, operands):
        values[name] = value(place, VALUES[name], text) if name in VALUES else text
    if "exact" in given and "period" not in given:
        raise Fault(f"NoPeriod {given['exact'][0]}")
    before = []
    for name, (place, text) in zip(names, operands):
        if name in OUTPUTS.get(words[0], []) and text in before:
            raise Fault(f"SameName {place}")
        before += [text] if name not in VALUES else []
    if "but" in given and OUTPUTS.get(words[0]) and given["but"][1] == operands[-1][1]:
        raise Fault(f"SameName {given['but'][0]}")
    if "low" in options:
        between(values.get("low", LIFE), values.get("high", LIFE))
    return words[0], values


def answer(words):
    try:
        job(words)
    except Fault as fault:
        return str(fault)
    return "ok"


# the numbers that a problem is made from, or turns or first decisions are drawn from
SEEDS = ["0", "18446744073709551615", "18446744073709551609", "07", "00000000000000000001"]
NO_SEEDS = ["18446744073709551616", "99999999999999999999", "000000000000000000001", "+1", "1e3", "x"]
GOOD = {
    "rule": ["B3/S23", "b36s23", "23/3", "B2-a/S12", "B3/S2-i34q", "/", "B/S", "B0123478/S01234678"],
    "low": ["B3/S23", "B/S", "23/3", "B3-j/S2", "B3k/S23-a", "B03/S238"],
    "high": ["B3/S23", "B36s23", "B3/S023", "B03/S23", "B3/S238", "B3/S2-i34q", "B2a3/S12345", "B013/S0238"],
    "period": ["1", "63", "4,1,-1", "04,-64,64", "2,0,0", "00000000000000000007"],
    "live": ["0:1-2", "0:-", "63:-8192", "0:1-,2:-7", "1:3-2"],
    "differ": ["0,1", "63,0", "5,5"],
    "but": ["no/a", "no/b", "no/list"],
    "budget": ["0", "10000000", "7", "00000000000000000100"],
    "crew": ["1", "16", "3", "00000000000000000016"],
    "turns": SEEDS,
    "first": SEEDS,
    "seed": SEEDS,
    "size": ["1", "64", "8", "08", "00000000000000000064"],
    **CHOICES,
}
BAD = {
    "rule": ["B9/S", "B1k/S", "B33/S", "B2aa/S", "B2-/S", "B3", "3", "B3/23", "B2-3/S", "Ba/S", "B3S2/3", "23/3/", "B3//S", "2--a/3", "8c/"],
    "low": ["B9/S", "B3", "B2aa/S", "B3/S2-"],
    "high": ["B3/S23/", "Ba/S", "8c/", "3"],
    "period": ["0", "64", "4,1", "4,1,1,1", "4,65,0", "4,0,-65", "4,+1,0", "4,,1", "4,--1,0", "000000000000000000004", "x"],
    "live": ["0", "0:", "0:1", "1-2", ":1-2", "64:1-2", "0:8193-", "0:1-2-3", "0:1:2", "0:1-2,", ",0:1-2", "0:000000000000000000001-"],
    "differ": ["0", "0,64", "0,1,2", "0,-1", ","],
    "budget": ["10000001", "1.5", "000000000000000000007", "all"],
    "crew": ["0", "17", "000000000000000000003", "+1", "3x", "18446744073709551617"],
    "turns": NO_SEEDS,
    "first": NO_SEEDS,
    "seed": NO_SEEDS,
    "size": ["0", "65", "000000000000000000001", "+8", "8x", "18446744073709551617"],
    "edge": ["shut", "Open", "closed,open"],
    "symmetry": ["C3", "c2", "D2", "D8 "],
    "images": ["All", "two", "one,all"],
    "formula": ["0", "3", "12", "01", "cover"],
    "keep": ["some", "All"],
    "manner": ["calm", "Both"],
    "as": ["RLE", "row"],
    "exact": ["Yes", "1", "yes,no"],
    # any name of a file will do
    "but": ["no/0", "no/-"],
}
ODD = ["", "-", "--", "-x", "-4", "---", "--best", "--best=1", "--=x", "--edge=", "--rule=-", "--help", "--edge", "--keep"]


def some_operand(choose, name):
    """A random operand of that name, right or not."""
    if name not in VALUES:
        return "no/" + choose.choice("abcde")
    # most rule texts are bad, since their faults are many
    right = 0.4 if name == "text" else 0.8
    return choose.choice((GOOD if choose.random() < right else BAD)[VALUES[name]])


def some_line(choose):
    """A random command line: of a right one, perhaps with a few words changed."""
    command = choose.choice([*COMMANDS, "open", "opencheck"])
    names, options = COMMANDS[command]
    # two rules have faults together, behind all others
    chosen = [name for name in options if choose.random() < (0.7 if name in ("low", "high") else 0.15 if "low" in options else 0.35)]
    if choose.random() < 0.1:
        chosen.append(choose.choice(list(GOOD)))
    operands = [some_operand(choose, name) for name in names]
    # None is the next operand
    parts = [None] * len(operands)
    for name in chosen:
        text = choose.choice(GOOD[name] if choose.random() < 0.75 else BAD[name])
        # a value alone, whose option is gone, would be a file that `make` can make
        inline = command == "make" or choose.random() < 0.5
        parts.append([f"--{name}={text}"] if inline else [f"--{name}", text])
    choose.shuffle(parts)
    words = [command] + [word for part in parts for word in part or [operands.pop(0)]]
    for _ in range(choose.choice([0, 0, 0, 1, 1, 2])):
        at = choose.randrange(1, len(words) + 1)
        if choose.random() < 0.5:
            words.insert(at, choose.choice(ODD + ["no/x", "no/=x", "no/a--b"]))
        elif len(words) > 1:
            del words[min(at, len(words) - 1)]
    if choose.random() < 0.02:
        words[0] = choose.choice(["guess", "Check", "--help", "--edge=open"])
    return words


def main():
    words = sys.argv[1:]
    if words[:1] == ["--random"]:
        choose = random.Random(int(words[2]))
        for _ in range(int(words[1])):
            line = some_line(choose)
            print(answer(line), shlex.join(line), sep="\t")
        return
    try:
        command, values = job(words)
    except Fault as fault:
        print("lls: words:", fault)
        sys.exit(2)
    print(command, *(f"{name}={text!r}" for name, text in values.items()))


if __name__ == "__main__":
    ending.run(main, __doc__)
