#!/usr/bin/env python3
"""Says in words why the program refused: from what it said, the words that it had, and the files that they name.

    explain.py STATUS LINE [WORD..]

STATUS is the program's and LINE its line on the standard error. Prints one line, and where a place in a text is at fault that line of the
text with a mark under the column; or nothing, where it doesn't know more than the program said. The wrapper `lls` calls it.

The program's words and files are those of docs/formats.md, where each fault stands.
"""
import difflib
import itertools
import os
import re
import sys

import ending
import words as spoken

WRAPPER = ("as-built", "bare", "help", "page", "posed", "quiet", "race", "trimmed", "unproved", "version")
LABELS = {"text": "RULE", "output": "OUT"}
# what the values may be that aren't one of a few
A_RULE = "a rule is written as B3/S23, 23/3 or B2-a/S12"
MEANINGS = {
    **dict.fromkeys(spoken.RULES, A_RULE),
    "period": "P or P,DX,DY without blanks, P from 1 to 63, DX and DY from -64 to 64",
    "live": "T:LOW-HIGH with commas between, T from 0 to 63, LOW and HIGH from 0 to 8192 or left out, as 0:1-,2:-7",
    "differ": "A,B, two generations from 0 to 63",
    "but": "the name of a file of patterns",
}
CELL = re.compile(rb"(?:[01*]|-?[A-Za-z][A-Za-z0-9]{0,31})'?")
# the most bytes of a file that are looked at for its kind and its rows; no search file has more
LOOK = 1_048_576
# the most cells of a search file
MOST_CELLS = 8192
WIDTH = 100


class Line:
    """The words of a command line, with its operands and options where the program took them."""

    def __init__(self, words):
        self.words = words
        self.command = words[0] if words else ""
        self.names, self.options = spoken.COMMANDS.get(self.command, ([], []))
        self.operands, self.given = [], {}
        try:
            self.operands, self.given = spoken.scan(words, self.options)
        except spoken.Fault:
            pass

    def word(self, place):
        return self.words[place - 1]

    def value(self, option):
        return self.given[option][1] if option in self.given else ""

    def files(self):
        """The files that are named, each as its kind and its name."""
        named = [(kind, word) for kind, (_, word) in zip(self.names, self.operands) if kind not in spoken.VALUES]
        return named + ([("list", self.value("but"))] if self.value("but") else [])

    def outputs(self):
        return [(kind, name) for kind, name in self.files() if kind in spoken.OUTPUTS.get(self.command, [])]

    def inputs(self):
        return [file for file in self.files() if file not in self.outputs()]


def some(number, what):
    return f"{number} {what}{'s' * (number != 1)}"


def shown(word):
    """A word between quotes, and not too much of it."""
    return f"'{word}'" if len(word) <= 60 else f"'{word[:57]}..'"


def nearest(word, others):
    """The other word that one may have meant, or None."""
    by_case = [other for other in others if other.lower() == word.lower()]
    found = by_case or difflib.get_close_matches(word, others, 1, 0.6)
    return found[0] if found else None


def marked(text, column):
    """A line of a text, and a mark under the byte of that column; of a long line what is round it."""
    text = "".join(chr(byte) if 32 <= byte < 127 else " " if byte == 9 else "?" for byte in text.rstrip(b"\r\n"))
    start = max(0, column - 1 - WIDTH // 2) if len(text) > WIDTH else 0
    return f"\n    {text[start : start + WIDTH]}\n    {' ' * (column - 1 - start)}^"


# Faults of the words


def option_of(word):
    return word.partition("=")[0]


def meaning(name):
    """What a value of an option, or of an operand that is no file, may be."""
    if name in spoken.CHOICES:
        return f"one of {' '.join(spoken.CHOICES[name])}"
    if name in spoken.RANGES:
        low, high = spoken.RANGES[name]
        return f"a number from {low} to {high}"
    return MEANINGS[name]


def no_command(line):
    return f"the first word is the command, one of {' '.join(spoken.COMMANDS)}; ./lls --help says what each does"


def unknown_command(line):
    word, near = line.command, nearest(line.command, spoken.COMMANDS)
    if near:
        return f"no command {shown(word)}; is it {near}?"
    if word.startswith("-") or os.path.exists(word):
        return f"{shown(word)} stands where the command has to, which is one of {' '.join(spoken.COMMANDS)}"
    return f"no command {shown(word)}; one of {' '.join(spoken.COMMANDS)}"


def bad_word(line, place):
    word = line.word(place)
    if word == "":
        return f"word {place} is empty"
    near = nearest(option_of(word)[1:], line.options) if word != "--" else None
    if near:
        return f"{shown(word)} has one dash, and options have two; is it --{near}?"
    return f"{shown(word)} is no option; a file whose name begins with - is written ./{'-name' if word in ('-', '--') else word}"


def unknown_option(line, place):
    name = option_of(line.word(place))[2:]
    takers = [command for command, (_, options) in spoken.COMMANDS.items() if name in options]
    if name in WRAPPER:
        return f"--{name} is the wrapper's, and stands before the command"
    if takers:
        return f"{line.command} doesn't take --{name}, which is for {', '.join(takers)}"
    if not line.options:
        return f"{line.command} takes no options"
    near = nearest(name, line.options)
    if near:
        return f"no option {shown('--' + name)}; is it --{near}?"
    return f"no option {shown('--' + name)}; {line.command} takes --{' --'.join(line.options)}"


def repeated_option(line, place):
    option = option_of(line.word(place))
    first = next(at for at, word in enumerate(line.words, 1) if option_of(word) == option)
    return f"{option} stands twice, as word {first} and as word {place}"


def missing_value(line, place):
    word = line.word(place)
    option = option_of(word)
    if option != word:
        return f"{shown(word)} has no value: {meaning(option[2:])}"
    if place < len(line.words):
        return f"{option} is followed by {shown(line.words[place])}, which is no value: {meaning(option[2:])}"
    return f"nothing follows {option}: {meaning(option[2:])}"


def operands(line, expected, found):
    names = " ".join(LABELS.get(name, name.upper()) for name in line.names)
    there = "there is none" if found == 0 else f"the words have {', '.join(shown(word) for _, word in line.operands)}"
    # `--period 4 1 1`: what stands behind a value may belong to it
    for option, (place, value) in line.given.items():
        behind = place + (1 if line.word(place) == f"--{option}" else 0) + 1
        if found > expected and option in ("period", "live", "differ") and any(at == behind for at, _ in line.operands):
            there += f"; is {shown(line.word(behind))} of --{option}? It is {meaning(option)}"
    return f"{line.command} takes {names}, and {there}"


def bad_value(line, place):
    word = line.word(place)
    if not word.startswith("--"):
        name = dict(zip((at for at, _ in line.operands), line.names))[place]
        return f"{name.upper()} {shown(word)}: {meaning(name)}"
    name = option_of(word)[2:]
    value = line.value(name)
    near = nearest(value, spoken.CHOICES[name]) if name in spoken.CHOICES else None
    # Names of symmetries are too short for a near one, but for its case.
    guess = f"; is it {near}?" if near and (len(value) > 3 or near.lower() == value.lower()) else ""
    if name == "live" and re.fullmatch(r"[0-9]+:[0-9]+", value):
        guess = f"; is it {value}-{value.partition(':')[2]}?"
    return f"--{name} {shown(value)[1:-1]}: {meaning(name)}{guess}"


RULE_FAULTS = {
    "RepeatedDigit": "this digit stands twice on its side",
    "RepeatedLetter": "this letter stands twice behind its digit",
    "NoLetters": "letters have to follow the dash",
    "Stray": A_RULE,
}


def bad_rule(line, fault, place, column):
    word = line.word(place)
    text = line.value(option_of(word)[2:]) if word.startswith("--") else word
    bytes_of = os.fsencode(text)
    why = RULE_FAULTS.get(fault)
    if fault == "BadLetter":
        digits = re.findall(rb"[0-8]", re.split(rb"[/BbSs]", bytes_of[: column - 1])[-1])
        letters = spoken.LETTERS[int(digits[-1])] if digits else ""
        allowed = f"none but the letters {letters}" if letters else "no letters"
        why = f"behind {digits[-1].decode()} stand {allowed}" if digits else "a letter stands behind a digit"
    if column == len(bytes_of) + 1:
        why = f"something is missing at its end; {A_RULE}"
    return f"the rule {shown(text)}, column {column}: {why}{marked(bytes_of, column)}"


def same_name(line, place):
    does = "writes both" if line.command == "make" else "reads"
    written = "the trimmed proof" if line.command == "trim" else "the proof"
    return f"{shown(line.word(place))} is the file that {line.command} {does}: {written} needs another name"


def no_period(line, place):
    return f"{shown(line.word(place))} speaks of the period: `--period P,X,Y` says which"


def neighbourhood(nine):
    """A neighbourhood by its number, as its rows from top to bottom."""
    bits = f"{nine:09b}"
    return f"the neighbourhood {bits[:3]}/{bits[3:6]}/{bits[6:]}"


def ends_of(line):
    return [line.value(name) or spoken.LIFE for name in ("low", "high")]


def rules_cross(line, nine):
    low, high = ends_of(line)
    return f"the low rule {shown(low)} gives 1 at {neighbourhood(nine)}, and the high one {shown(high)} gives 0: no rule is between"


def loose_background(line, nine):
    low, high = ends_of(line)
    return f"the rules {shown(low)} and {shown(high)} differ at {neighbourhood(nine)}, so the background isn't settled"


WORD_FAULTS = {
    "NoCommand": no_command,
    "UnknownCommand": unknown_command,
    "BadWord": bad_word,
    "UnknownOption": unknown_option,
    "RepeatedOption": repeated_option,
    "MissingValue": missing_value,
    "Operands": operands,
    "BadValue": bad_value,
    "NoPeriod": no_period,
    "SameName": same_name,
    "RulesCross": rules_cross,
    "LooseBackground": loose_background,
}


def of_words(line, fault, numbers):
    if fault in WORD_FAULTS:
        return WORD_FAULTS[fault](line, *numbers)
    return bad_rule(line, fault, *numbers) if len(numbers) == 2 else None


# What is in the files


def head_of(name):
    """The first bytes of a file, or nothing where it is no plain file, which could be read only once."""
    if not os.path.isfile(name):
        return b""
    with open(name, "rb") as file:
        return file.read(LOOK + 1)


def line_of(name, number):
    """A line of a file, by its number from 1."""
    if not os.path.isfile(name):
        return b""
    with open(name, "rb") as file:
        return next(itertools.islice(file, number - 1, None), b"")


def looks(data):
    """The kind of file that some bytes look like, or None."""
    if data.startswith(b"#Life 1.0"):
        return "Life 1.0"
    lines = [line.strip() for line in data.split(b"\n")]
    body = [line for line in lines if line and not line.startswith(b"#")]
    first = body[0] if body else b""
    items = re.match(rb"[0-9bo$\s]*!", b"\n".join(body))
    if re.match(rb"x *= *[0-9]", first) or items and re.search(rb"[bo$]", items.group()):
        return "RLE"
    if any(re.match(rb"p[ \t]+cnf[ \t]+[0-9]", line) for line in lines[:1000]):
        return "formula"
    if re.match(rb"[0-9]+ (d |(-?[1-9][0-9]* )*0 (-?[1-9][0-9]* )*0$)", first):
        return "proof"
    if first.startswith(b"!") or first and re.fullmatch(rb"[.O*]+", first) and (b"." in first or b"O" in first):
        return "cells"
    if first and all(CELL.fullmatch(word) for word in re.split(rb"[ \t,]+", first.rstrip(b", \t"))):
        return "rows"
    return None


KINDS = {
    "RLE": "RLE",
    "Life 1.0": "Life 1.05 or 1.06",
    "cells": "plaintext (.cells)",
    "formula": "a formula in DIMACS CNF",
    "proof": "an LRAT proof",
    "rows": "rows of cells",
}


def other_kind(line, kind, name):
    """Says that a file looks like another kind than it is read as, and what then, or None."""
    found, is_rle = looks(head_of(name)), kind == "pattern" and line.value("as") == "rle"
    if found is None or found == {"formula": "formula", "search": "rows", "pattern": "RLE" if is_rle else "rows"}.get(kind):
        return None
    then = ""
    if found == "rows":
        then = ", which are read without --as rle" if is_rle else ", and cnf prints the formula of such a search file"
    elif found == "formula":
        then = ", which sat, lrat and trim read"
    elif found == "proof":
        then = "; are the two files exchanged?"
    elif kind == "search":
        then = ", and a search file has rows of cells; tools/pose.py poses questions of pictures"
    elif kind == "pattern":
        then = ", which is read with --as rle" if found == "RLE" else ", and a pattern has rows of cells, or RLE with --as rle; tools/place.py makes RLE of it"
    return f"{name} looks like {KINDS[found]}{then}"


def rows_of(data):
    """The rows of cells of each generation, each as its line's number and its words with their columns."""
    generations, is_apart = [], True
    for number, text in enumerate(data.split(b"\n"), 1):
        text = text.removesuffix(b"\r")
        if text.lstrip(b" \t").startswith(b"#"):
            continue
        found = [(match.start() + 1, match.group()) for match in re.finditer(rb"[^ \t,]+|,", text)]
        if found and is_apart:
            generations.append([])
        is_apart = not found
        if found:
            generations[-1].append((number, found))
    return generations


def bad_cell(found):
    """The column of the first word of a row that is no cell, or of a comma too many, or None."""
    before = b","
    for column, word in found:
        if word == b"," and before == b"," or word != b"," and not CELL.fullmatch(word):
            return column
        before = word
    return None


def cells_of(found):
    return [(column, word) for column, word in found if word != b","]


def is_at_fault(name, fault, numbers):
    """Whether that fault of the rows is in this file."""
    generations = rows_of(head_of(name))
    rows = {number: found for rows in generations for number, found in rows}
    widths = [len(cells_of(found)) for found in rows.values()]
    if fault in ("BadCell", "NotAscii"):
        found = rows.get(numbers[0], [])
        not_ascii = [column + at for column, word in found for at, byte in enumerate(word) if byte > 127]
        return numbers[1] == ((not_ascii or [None])[0] if fault == "NotAscii" else bad_cell(found))
    if fault == "Ragged":
        return widths[:1] == [numbers[1]] and len(cells_of(rows.get(numbers[0], []))) == numbers[2] != numbers[1]
    if fault == "Sizes":
        return len(generations) > numbers[0] and len(generations[numbers[0]]) == numbers[2] and len(generations[0]) == numbers[1]
    return {
        "Empty": not rows,
        "TooWide": bool(numbers) and numbers[0] in widths,
        "TooMany": len(generations) > 64,
        "TooHigh": any(len(generation) > 64 for generation in generations),
        "TooManyCells": sum(widths) > MOST_CELLS,
    }.get(fault, True)


# Faults of the files


def cell_fault(name, fault, number, column):
    text = line_of(name, number)
    if column > len(text):
        return None
    word = (re.match(rb"[^ \t,\r\n]*", text[column - 1 :]).group() or text[column - 1 : column]).decode("latin-1")
    if fault == "NotAscii":
        why = "this byte isn't ASCII"
    elif word == ",":
        why = "a comma stands between two cells"
    elif re.fullmatch("[01*]{2,}", word):
        why = f"{shown(word)} is no cell: cells have blanks between them"
    else:
        why = f"{shown(word)} is no cell: 0 is dead, 1 live, * unknown, letters and digits a name"
    return f"{name}:{number}:{column}: {why}{marked(text, column)}"


def rows_fault(name, fault, numbers):
    """Says a fault of rows of cells, in the search file or the pattern."""
    if fault in ("BadCell", "NotAscii"):
        return cell_fault(name, fault, *numbers)
    if fault == "Ragged":
        number, expected, found = numbers
        cells = cells_of(dict(row for rows in rows_of(head_of(name)) for row in rows).get(number, []))
        column = cells[expected][0] if found > expected else cells[-1][0] if cells else 1
        return f"{name}:{number}: this row has {some(found, 'cell')}, and the first has {expected}{marked(line_of(name, number), column)}"
    if fault == "Sizes":
        generation, expected, found = numbers
        return f"generation {generation} of {name} has {some(found, 'row')}, and generation 0 has {expected}; a blank line ends a generation"
    return {
        "Empty": "{name} has no row of cells",
        "TooWide": "a row of {name} has {0} cells, and 64 are the most",
        "TooMany": "{name} has more than 64 generations; blank lines separate them",
        "TooHigh": "a generation of {name} has more than 64 rows; a blank line ends it",
        "TooManyCells": f"{{name}} has {{0}} cells or more, and {MOST_CELLS} are the most",
    }[fault].format(*numbers, name=name)


def not_plain(name, generation, row, column):
    number, found = rows_of(head_of(name))[generation][row]
    at, word = cells_of(found)[column]
    return f"{name}:{number}:{at}: {shown(word.decode('latin-1'))} in a pattern, which has 0 and 1 alone{marked(line_of(name, number), at)}"


def rle_fault(name, fault, numbers):
    if fault == "BadTag":
        number, column = numbers
        text = line_of(name, number)
        byte = text[column - 1 : column].decode("latin-1")
        why = f"{shown(byte)} is no tag: b is dead, o live, $ a row's end, ! the end"
        if re.fullmatch("[0-9!]", byte):
            why = "a count has 1 to 6 digits, isn't zero, and a tag follows it"
        return f"{name}:{number}:{column}: {why}{marked(text, column)}"
    return {
        "NoHeader": "{name} has no header: the first line that is no comment is as x = 3, y = 3; tools/place.py writes one",
        "TooWide": "{name} has a live cell in row {0}, counted from 0, right of the grid's last column",
        "TooHigh": "{name} has a live cell in row {0}, counted from 0, below the grid's last row",
        "NoEnd": "{name} ends without the ! of a picture's end",
    }[fault].format(*numbers, name=name)


def formula_fault(name, fault, numbers):
    if fault in ("BadHeader", "Percent", "BadWord", "LiteralRange"):
        text = line_of(name, numbers[0])
        if fault == "BadHeader":
            why, column = "the header is p cnf VARIABLES CLAUSES", 1
        elif fault == "Percent":
            why, column = "a %, as files of SATLIB end: take this line out, and those behind it", text.find(b"%") + 1
        elif fault == "LiteralRange":
            why = f"the literal {numbers[1]} is beyond the variables of the header"
            column = re.search(rb"(?<!\S)-?0*%d(?!\S)" % abs(numbers[1]), text).start() + 1
        else:
            odd = next((match for match in re.finditer(rb"\S+", text) if not re.fullmatch(rb"0{1,18}|-?[0-9]{1,18}", match.group())), None)
            column = odd.start() + 1 if odd else 1
            why = f"{shown(odd.group().decode('latin-1') if odd else '')} is no number"
        return f"{name}:{numbers[0]}: {why}{marked(text, max(column, 1))}"
    return {
        "NoHeader": "{name} has no header p cnf VARIABLES CLAUSES before its clauses",
        "Unended": "{name} ends inside a clause: the last one has no 0",
        "ClauseCount": "the header of {name} says {0} clauses, and there are {1}",
        "TooManyVariables": "{name} declares {0} variables, and 16777216 are the most",
    }[fault].format(*numbers, name=name)


def demand_fault(line, name, fault, numbers):
    has = f"{name} has {some(len(rows_of(head_of(name))), 'generation')}, from 0"
    if fault == "NotSquare":
        return f"--symmetry {line.value('symmetry')} exchanges rows and columns, and {name} has {some(numbers[0], 'row')} of {some(numbers[1], 'cell')}"
    if fault == "NoGeneration":
        is_live = re.search(rf"(^|,)0*{numbers[0]}:", line.value("live"))
        option = "live" if is_live else "differ"
        return f"--{option} {line.value(option)} names generation {numbers[0]}, and {has}"
    if fault == "BoundsCross":
        return f"--live {line.value('live')}: for generation {numbers[0]} the low end is above the high end, or above the number of cells"
    if fault == "PeriodTooLong":
        return f"--period {line.value('period')} asks for {numbers[0] + 1} generations or more, and {has}"
    if line.command in ("least", "most"):
        return f"to count the live cells of {name} takes {numbers[0]} variables, with those of --live, and 1000000 are the most"
    return f"--live {line.value('live')} needs {numbers[0]} variables for counting, and 1000000 are the most; lower numbers need fewer"


def list_fault(line, fault, numbers):
    """Why a list of patterns isn't one of the grid's size."""
    name = line.value("but")
    at = f"{name}:{numbers[0]}"
    if line.value("as") != "rle" and looks(head_of(name)) == "RLE":
        return f"{name} looks like RLE, which is read with --as rle"
    if fault == "Width":
        return f"{at}: a row of the grid has {some(numbers[1], 'cell')}, and this one has {numbers[2]}"
    if fault == "Height":
        return f"{at}: a pattern has {some(numbers[1], 'row')}, and this one has {numbers[2]} before an empty line ends it"
    if fault == "NotPlain":
        return f"{at}: cell {numbers[1]} of the row, counted from 0, isn't 0 or 1: a pattern has no unknown cell, no name and no mark"
    if fault == "TooMany":
        return f"{name} has {numbers[0]} patterns or more, and {numbers[0] - 1} are the most"
    return rows_fault(name, fault, numbers)


def picture_fault(line, count, fault, numbers):
    """Why a picture of a list isn't read."""
    name = line.value("but")
    if fault == "NoHeader":
        if looks(head_of(name)) == "rows":
            return f"{name} looks like rows of cells, which are read without --as rle"
        return f"{name} has {some(count, 'picture')}, and then a line that is no comment and no header, as x = 3, y = 3"
    why = rle_fault(name, fault, numbers)
    return why if fault == "BadTag" else f"{why}: that is picture {count}, counted from 0"


ROWS = ("NotAscii", "BadCell", "TooWide", "TooMany", "Ragged", "TooHigh", "Sizes", "TooManyCells", "Empty")
DEMANDS = ("NotSquare", "NoGeneration", "BoundsCross", "PeriodTooLong", "Counters")


def of_content(line, fault, numbers, is_limit=False):
    (kind, name), (second, pattern) = (line.inputs() + [("", "")])[:2]
    if fault in DEMANDS:
        return demand_fault(line, name, fault, numbers)
    if fault.startswith("List"):
        return list_fault(line, fault.removeprefix("List"), numbers)
    if fault == "NotPlain":
        return not_plain(pattern, *numbers)
    is_rle = second == "pattern" and line.value("as") == "rle"
    if is_rle and (fault in ("NoHeader", "BadTag", "NoEnd") or fault in ("TooWide", "TooHigh") and not is_limit):
        return other_kind(line, second, pattern) or rle_fault(pattern, fault, numbers)
    if kind == "formula":
        return other_kind(line, kind, name) or formula_fault(name, fault, numbers)
    if fault in ROWS and second == "pattern" and not is_rle and not is_at_fault(name, fault, numbers):
        kind, name = second, pattern
    if "low" in line.options and fault == "TooManyCells" and numbers[0] <= MOST_CELLS:
        return f"{name} has {numbers[0]} cells, and with an open rule 2048 are the most"
    return other_kind(line, kind, name) or rows_fault(name, fault, numbers)


def of_limits(line, fault, numbers):
    if fault != "TooLong":
        return of_content(line, fault, numbers, True)
    for _, name in line.inputs():
        if os.path.isfile(name) and os.path.getsize(name) > numbers[0]:
            return f"{name} has {os.path.getsize(name)} bytes, and {numbers[0]} are the most"
    return None


# Faults of the outside


def missing(name):
    folder, last = os.path.split(name)
    if not os.path.isdir(folder or "."):
        return f"there is no folder {shown(folder)}"
    near = nearest(last, sorted(os.listdir(folder or "."))[:1000])
    return f"there is no file {shown(name)}{f'; is it {shown(os.path.join(folder, near))}?' if near else ''}"


def unusable(name, mode):
    """Why a file that is there can't be read, or written, or None."""
    if os.path.isdir(name):
        return f"{shown(name)} is a folder"
    if os.path.exists(name) and not os.access(name, mode):
        return f"{shown(name)} may not be {'read' if mode == os.R_OK else 'written'} by you"
    return None


def not_made(name):
    """Why a file couldn't be made, or None."""
    folder = os.path.dirname(name) or "."
    if not os.path.isdir(folder):
        return f"there is no folder {shown(folder)} for {shown(name)}"
    if not os.path.exists(name) and not os.access(folder, os.W_OK):
        return f"you may make no file in {shown(folder)}"
    return unusable(name, os.W_OK)


def of_outside(line, fault, _):
    inputs, outputs = [name for _, name in line.inputs()], [name for _, name in line.outputs()]
    if fault == "NoFile":
        found = [missing(name) for name in inputs if not os.path.lexists(name)]
    elif fault in ("OpenFailed", "ReadFailed"):
        found = [unusable(name, os.R_OK) for name in inputs]
    elif fault == "CreateFailed":
        found = [not_made(name) for name in outputs]
    elif fault == "WriteFailed":
        found = [f"{' or '.join(map(shown, outputs))} could be written only in part: is the disk full?"]
    else:
        found = ["the standard output takes nothing more: it is closed, or its disk is full"]
    return next((why for why in found if why), None)


CLASSES = {2: ("words", of_words), 3: ("content", of_content), 4: ("outside", of_outside), 6: ("limit", of_limits)}


def explanation(status, said, words):
    """The explanation of what the program said, or None where there is none."""
    name, explain = CLASSES.get(status, ("", None))
    found = re.fullmatch(rf"lls: {name}: (ListPicture [0-9]+ )?([A-Za-z]+)((?: -?[0-9]+)*)", said)
    if not explain or not found:
        return None
    numbers = [int(number) for number in found.group(3).split()]
    try:
        if found.group(1):
            why = picture_fault(Line(words), int(found.group(1).split()[1]), found.group(2), numbers)
        else:
            why = explain(Line(words), found.group(2), numbers)
    except (AttributeError, IndexError, KeyError, OSError, TypeError, ValueError):
        # The file or the words aren't those that the program spoke of: there is nothing to add.
        return None
    # Words and names of files may have anything in them.
    return why and "".join(char if char.isprintable() or char == "\n" else "?" for char in why)


def main():
    sys.stdout.reconfigure(errors="backslashreplace")
    status, said, *words = ending.words(__doc__, "STATUS", "LINE", "WORD..")
    text = explanation(ending.number(status, "STATUS"), said, words)
    if text:
        print(f"lls: {text}")


if __name__ == "__main__":
    ending.run(main, __doc__)
