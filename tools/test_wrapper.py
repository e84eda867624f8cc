#!/usr/bin/env python3
"""Tests of what the wrapper `lls` puts on the standard error besides the program: explanations of refusals, and on a terminal what runs.

    test_wrapper.py

The program is a small script in its place, so nothing is proved or built. What is expected was written by hand: the program's lines from
docs/formats.md, those of the words also as tools/words.py finds them.
"""
import os
import pty
import re
import select
import shutil
import signal
import subprocess
import sys
import tempfile
import time
import unittest

import explain
import words

TOP = os.path.dirname(os.path.dirname(os.path.abspath(__file__)))

# Prints what its environment says, on both streams, and ends with its status.
PROGRAM = """#!/bin/bash
printf '%s' "${OUT-}"
[ -z "${SAYS-}" ] || echo "$SAYS" >&2
exit "${ENDS-0}"
"""

# Words with a fault, the program's line, and the explanation. The words are parted by blanks, `''` is the empty one.
WORDS = [
    ("serch q.lls p", "UnknownCommand", "no command 'serch'; is it search?"),
    ("SAT f p", "UnknownCommand", "no command 'SAT'; is it sat?"),
    ("fly", "UnknownCommand", "no command 'fly'; one of check search judge cnf sat lrat rule make least most open opencheck trim"),
    ("q.lls p", "UnknownCommand", "'q.lls' stands where the command has to, which is one of check search judge cnf sat lrat rule make least most open opencheck trim"),
    ("--edge=open check q.lls p", "UnknownCommand", "'--edge=open' stands where the command has to, which is one of check search judge cnf sat lrat rule make least most open opencheck trim"),
    ("check q.lls ''", "BadWord 3", "word 3 is empty"),
    ("check q.lls p -rule B3/S23", "BadWord 4", "'-rule' has one dash, and options have two; is it --rule?"),
    ("lrat f -", "BadWord 3", "'-' is no option; a file whose name begins with - is written ./-name"),
    ("lrat f -p", "BadWord 3", "'-p' is no option; a file whose name begins with - is written ./-p"),
    ("search q.lls p --simmetry C2", "UnknownOption 4", "no option '--simmetry'; is it --symmetry?"),
    ("cnf q.lls --zoom=1", "UnknownOption 3", "no option '--zoom'; cnf takes --rule --edge --symmetry --period --exact --live --differ --but --images --formula --as"),
    ("check q.lls p --budget 9", "UnknownOption 4", "check doesn't take --budget, which is for search, sat, least, most, open"),
    ("least q.lls p --crew 2", "UnknownOption 4", "least doesn't take --crew, which is for search"),
    ("sat f p --edge open", "UnknownOption 4", "sat doesn't take --edge, which is for check, search, judge, cnf, least, most, open, opencheck"),
    ("rule B3/S23 --fast", "UnknownOption 3", "rule takes no options"),
    ("search q.lls p --quiet", "UnknownOption 4", "--quiet is the wrapper's, and stands before the command"),
    ("cnf --rule B3/S23 q.lls --rule=B3/S2", "RepeatedOption 5", "--rule stands twice, as word 2 and as word 5"),
    ("search q.lls p --edge", "MissingValue 4", "nothing follows --edge: one of closed open"),
    ("search q.lls p --keep=", "MissingValue 4", "'--keep=' has no value: one of all half"),
    ("search q.lls p --crew", "MissingValue 4", "nothing follows --crew: a number from 1 to 16"),
    ("search q.lls p --differ --edge open", "MissingValue 4", "--differ is followed by '--edge', which is no value: A,B, two generations from 0 to 63"),
    ("check q.lls", "Operands 2 1", "check takes SEARCH PROOF, and the words have 'q.lls'"),
    ("rule", "Operands 1 0", "rule takes RULE, and there is none"),
    (
        "cnf q.lls --period 4 1 1",
        "Operands 1 3",
        "cnf takes SEARCH, and the words have 'q.lls', '1', '1'; is '1' of --period? It is P or P,DX,DY without blanks, P from 1 to 63, "
        "DX and DY from -64 to 64",
    ),
    ("check q.lls p --symmetry D4", "BadValue 4", "--symmetry D4: one of C1 C2 C4 D2- D2| D2\\ D2/ D4+ D4x D8"),
    ("check q.lls p --symmetry=d8", "BadValue 4", "--symmetry d8: one of C1 C2 C4 D2- D2| D2\\ D2/ D4+ D4x D8; is it D8?"),
    ("search q.lls p --budget 1e6", "BadValue 4", "--budget 1e6: a number from 0 to 10000000"),
    ("search q.lls p --crew 17", "BadValue 4", "--crew 17: a number from 1 to 16"),
    ("search q.lls p --crew 2 --turns=x", "BadValue 6", "--turns x: a number from 0 to 18446744073709551615"),
    ("make 1 65 q.lls p", "BadValue 3", "SIZE '65': a number from 1 to 64"),
    (
        "search q.lls p --live 0:8",
        "BadValue 4",
        "--live 0:8: T:LOW-HIGH with commas between, T from 0 to 63, LOW and HIGH from 0 to 8192 or left out, as 0:1-,2:-7; is it 0:8-8?",
    ),
    (
        "search q.lls p --live 1-2",
        "BadValue 4",
        "--live 1-2: T:LOW-HIGH with commas between, T from 0 to 63, LOW and HIGH from 0 to 8192 or left out, as 0:1-,2:-7",
    ),
    ("rule B1k/S", "BadLetter 2 3", "the rule 'B1k/S', column 3: behind 1 stand none but the letters ce\n    B1k/S\n      ^"),
    ("cnf q.lls --rule=B33/S", "RepeatedDigit 3 3", "the rule 'B33/S', column 3: this digit stands twice on its side\n    B33/S\n      ^"),
    (
        "cnf q.lls --rule HighLife",
        "Stray 3 1",
        "the rule 'HighLife', column 1: a rule is written as B3/S23, 23/3 or B2-a/S12\n    HighLife\n    ^",
    ),
    ("rule B2-/S", "NoLetters 2 3", "the rule 'B2-/S', column 3: letters have to follow the dash\n    B2-/S\n      ^"),
    ("rule 23/8c", "BadLetter 2 5", "the rule '23/8c', column 5: behind 8 stand no letters\n    23/8c\n        ^"),
    ("rule Bc/S", "BadLetter 2 2", "the rule 'Bc/S', column 2: a letter stands behind a digit\n    Bc/S\n     ^"),
    ("search f p --exact yes", "NoPeriod 4", "'--exact' speaks of the period: `--period P,X,Y` says which"),
    ("make 1 8 p p", "SameName 5", "'p' is the file that make writes both: the proof needs another name"),
    ("rule B3", "Stray 2 3", "the rule 'B3', column 3: something is missing at its end; a rule is written as B3/S23, 23/3 or B2-a/S12\n    B3\n      ^"),
    ("search q.lls q.lls", "SameName 3", "'q.lls' is the file that search reads: the proof needs another name"),
    ("least q.lls q.lls", "SameName 3", "'q.lls' is the file that least reads: the proof needs another name"),
    ("trim f p p", "SameName 4", "'p' is the file that trim reads: the trimmed proof needs another name"),
    ("trim f p", "Operands 3 2", "trim takes FORMULA PROOF OUT, and the words have 'f', 'p'"),
    ("open q.lls p --rule B3/S2", "UnknownOption 4", "open doesn't take --rule, which is for check, search, judge, cnf, least, most"),
    ("least q.lls p --low B3/S2", "UnknownOption 4", "least doesn't take --low, which is for open, opencheck"),
    ("open q.lls p --low= --high B3/S2", "MissingValue 4", "'--low=' has no value: a rule is written as B3/S23, 23/3 or B2-a/S12"),
    ("open q.lls p --high B2-/S", "NoLetters 4 3", "the rule 'B2-/S', column 3: letters have to follow the dash\n    B2-/S\n      ^"),
    (
        "open q.lls p --high B3/S2",
        "RulesCross 23",
        "the low rule 'B3/S23' gives 1 at the neighbourhood 000/010/111, and the high one 'B3/S2' gives 0: no rule is between",
    ),
    (
        "opencheck q.lls q.lls --low B3/S238",
        "RulesCross 511",
        "the low rule 'B3/S238' gives 1 at the neighbourhood 111/111/111, and the high one 'B3/S23' gives 0: no rule is between",
    ),
    (
        "open q.lls p --high=B03/S23",
        "LooseBackground 0",
        "the rules 'B3/S23' and 'B03/S23' differ at the neighbourhood 000/000/000, so the background isn't settled",
    ),
]

# Files that are there, and words, faults of what they say, and explanations.
FILES = {
    "q.lls": "* *\n* *\n\n* *\n* *\n",
    "odd.lls": "# a box\n0 1\n1 2\n",
    "tight.lls": "0 1\n01\n",
    "commas.lls": "0,,1\n",
    "ragged.lls": "0 1\n0 1 *\n",
    "sizes.lls": "0 1\n0 1\n\n0 1\n",
    "empty.lls": "# nothing\n",
    "wide.lls": "0 " * 65 + "\n",
    "glider.rle": "#C a glider\nx = 3, y = 3, rule = B3/S23\nbob$2bo$3o!\n",
    "bare.rle": "bob$2bo$3o!\n",
    "bad.rle": "x = 3, y = 3\nbob$2bA$3o!\n",
    "open.rle": "x = 3, y = 3\nbo$2o\n",
    "tall.rle": "x = 1, y = 3\no$o$o!\n",
    "picture.cells": "!Name: Glider\n.O.\n..O\nOOO\n",
    "p": "1 1\n1 *\n\n1 1\n1 1\n",
    "bad.pattern": "1 1\n1 ?\n",
    "f.cnf": "c two\np cnf 2 2\n1 -2 0\n2 -3 0\n",
    "word.cnf": "p cnf 2 1\n1 x 0\n",
    "satlib.cnf": "p cnf 1 1\n1 0\n%\n0\n",
    "header.cnf": "c\np cnf 2\n1 0\n",
    "count.cnf": "p cnf 1 3\n1 0\n-1 0\n",
    "many.cnf": "p cnf 16777217 0\n",
    "unended.cnf": "p cnf 2 1\n1 -2\n",
    "f.lrat": "3 0 1 2 0\n",
    "accent.lls": "0 \u00e9\n",
    "row.lls": "0 1 *\n",
    "large.lls": ("* " * 64 + "\n") * 64,
    "larger.lls": (("* " * 64 + "\n") * 64 + "\n") * 3,
    "high.lls": "0\n" * 65,
    "many.lls": "0\n\n" * 65,
    "zero.rle": "x = 3, y = 3\n0b!\n",
    "wide.list": "0 1\n0 1\n\n0 1 1\n0 1\n",
    "two.rle": "x = 1, y = 1\no!\n\no!\n",
}
CONTENT = [
    ("cnf odd.lls", "content: BadCell 3 3", "odd.lls:3:3: '2' is no cell: 0 is dead, 1 live, * unknown, letters and digits a name\n    1 2\n      ^"),
    ("cnf tight.lls", "content: BadCell 2 1", "tight.lls:2:1: '01' is no cell: cells have blanks between them\n    01\n    ^"),
    ("cnf commas.lls", "content: BadCell 1 3", "commas.lls:1:3: a comma stands between two cells\n    0,,1\n      ^"),
    ("cnf ragged.lls", "content: Ragged 2 2 3", "ragged.lls:2: this row has 3 cells, and the first has 2\n    0 1 *\n        ^"),
    ("cnf sizes.lls", "content: Sizes 1 2 1", "generation 1 of sizes.lls has 1 row, and generation 0 has 2; a blank line ends a generation"),
    ("cnf empty.lls", "content: Empty", "empty.lls has no row of cells"),
    ("cnf wide.lls", "limit: TooWide 65", "a row of wide.lls has 65 cells, and 64 are the most"),
    (
        "search glider.rle new",
        "content: BadCell 2 3",
        "glider.rle looks like RLE, and a search file has rows of cells; tools/pose.py poses questions of pictures",
    ),
    ("cnf bare.rle", "content: BadCell 1 1", "bare.rle looks like RLE, and a search file has rows of cells; tools/pose.py poses questions of pictures"),
    (
        "cnf picture.cells",
        "content: BadCell 1 1",
        "picture.cells looks like plaintext (.cells), and a search file has rows of cells; tools/pose.py poses questions of pictures",
    ),
    ("cnf f.cnf", "content: BadCell 2 7", "f.cnf looks like a formula in DIMACS CNF, which sat, lrat and trim read"),
    ("check f.lrat q.lls", "content: BadCell 1 1", "f.lrat looks like an LRAT proof; are the two files exchanged?"),
    ("judge q.lls glider.rle", "content: BadCell 2 3", "glider.rle looks like RLE, which is read with --as rle"),
    ("judge q.lls p --as rle", "content: NoHeader", "p looks like rows of cells, which are read without --as rle"),
    (
        "judge odd.lls p",
        "content: BadCell 3 3",
        "odd.lls:3:3: '2' is no cell: 0 is dead, 1 live, * unknown, letters and digits a name\n    1 2\n      ^",
    ),
    ("judge wide.lls p", "limit: TooWide 65", "a row of wide.lls has 65 cells, and 64 are the most"),
    ("judge q.lls wide.lls", "limit: TooWide 65", "a row of wide.lls has 65 cells, and 64 are the most"),
    ("judge ragged.lls p", "content: Ragged 2 2 3", "ragged.lls:2: this row has 3 cells, and the first has 2\n    0 1 *\n        ^"),
    ("judge q.lls sizes.lls", "content: Sizes 1 2 1", "generation 1 of sizes.lls has 1 row, and generation 0 has 2; a blank line ends a generation"),
    ("judge q.lls p", "content: NotPlain 0 1 1", "p:2:3: '*' in a pattern, which has 0 and 1 alone\n    1 *\n      ^"),
    (
        "judge q.lls bad.pattern",
        "content: BadCell 2 3",
        "bad.pattern:2:3: '?' is no cell: 0 is dead, 1 live, * unknown, letters and digits a name\n    1 ?\n      ^",
    ),
    (
        "judge q.lls bad.rle --as rle",
        "content: BadTag 2 7",
        "bad.rle:2:7: 'A' is no tag: b is dead, o live, $ a row's end, ! the end\n    bob$2bA$3o!\n          ^",
    ),
    ("judge q.lls zero.rle --as=rle", "content: BadTag 2 1", "zero.rle:2:1: a count has 1 to 6 digits, isn't zero, and a tag follows it\n    0b!\n    ^"),
    ("judge q.lls bare.rle --as=rle", "content: NoHeader", "bare.rle has no header: the first line that is no comment is as x = 3, y = 3; tools/place.py writes one"),
    ("judge q.lls tall.rle --as=rle", "content: TooHigh 2", "tall.rle has a live cell in row 2, counted from 0, below the grid's last row"),
    ("cnf accent.lls", "content: NotAscii 1 3", "accent.lls:1:3: this byte isn't ASCII\n    0 ??\n      ^"),
    ("cnf high.lls", "limit: TooHigh 65", "a generation of high.lls has more than 64 rows; a blank line ends it"),
    ("cnf many.lls", "limit: TooMany 65", "many.lls has more than 64 generations; blank lines separate them"),
    ("judge q.lls many.lls", "limit: TooMany 65", "many.lls has more than 64 generations; blank lines separate them"),
    ("sat header.cnf new", "content: BadHeader 2", "header.cnf:2: the header is p cnf VARIABLES CLAUSES\n    p cnf 2\n    ^"),
    ("sat unended.cnf new", "content: Unended", "unended.cnf ends inside a clause: the last one has no 0"),
    ("lrat count.cnf f.lrat", "content: ClauseCount 3 2", "the header of count.cnf says 3 clauses, and there are 2"),
    ("sat many.cnf new", "limit: TooManyVariables 16777217", "many.cnf declares 16777217 variables, and 16777216 are the most"),
    (
        "cnf q.lls --live 0:3-2",
        "content: BoundsCross 0",
        "--live 0:3-2: for generation 0 the low end is above the high end, or above the number of cells",
    ),
    (
        "cnf large.lls --live 0:1-300",
        "limit: Counters 1232896",
        "--live 0:1-300 needs 1232896 variables for counting, and 1000000 are the most; lower numbers need fewer",
    ),
    ("cnf larger.lls", "limit: TooManyCells 8256", "larger.lls has 8256 cells or more, and 8192 are the most"),
    (
        "least large.lls new",
        "limit: Counters 16777216",
        "to count the live cells of large.lls takes 16777216 variables, with those of --live, and 1000000 are the most",
    ),
    ("open large.lls new", "limit: TooManyCells 4096", "large.lls has 4096 cells, and with an open rule 2048 are the most"),
    ("opencheck larger.lls p", "limit: TooManyCells 8256", "larger.lls has 8256 cells or more, and 8192 are the most"),
    ("open q.lls folder", "outside: CreateFailed", "'folder' is a folder"),
    ("search q.lls folder", "outside: CreateFailed", "'folder' is a folder"),
    ("trim f.cnf f.lrat folder", "outside: CreateFailed", "'folder' is a folder"),
    ("search q.lls new", "outside: WriteFailed", "'new' could be written only in part: is the disk full?"),
    ("judge q.lls open.rle --as=rle", "content: NoEnd", "open.rle ends without the ! of a picture's end"),
    (
        "judge q.lls glider.rle --as=rle",
        "content: TooWide 1",
        "glider.rle has a live cell in row 1, counted from 0, right of the grid's last column",
    ),
    ("cnf q.lls --but wide.list", "content: ListWidth 4 2 3", "wide.list:4: a row of the grid has 2 cells, and this one has 3"),
    ("check q.lls f.lrat --but glider.rle", "content: ListBadCell 3 1", "glider.rle looks like RLE, which is read with --as rle"),
    ("cnf q.lls --but p --as=rle", "content: ListPicture 0 NoHeader", "p looks like rows of cells, which are read without --as rle"),
    ("cnf q.lls --but two.rle --as=rle", "content: ListPicture 1 NoHeader", "two.rle has 1 picture, and then a line that is no comment and no header, as x = 3, y = 3"),
    (
        "search q.lls new --but tall.rle --as rle",
        "content: ListPicture 0 TooHigh 2",
        "tall.rle has a live cell in row 2, counted from 0, below the grid's last row: that is picture 0, counted from 0",
    ),
    (
        "judge q.lls p --but bad.rle --as rle",
        "content: ListPicture 0 BadTag 2 7",
        "bad.rle:2:7: 'A' is no tag: b is dead, o live, $ a row's end, ! the end\n    bob$2bA$3o!\n          ^",
    ),
    ("opencheck q.lls f.lrat --but p", "limit: ListTooMany 1000001", "p has 1000001 patterns or more, and 1000000 are the most"),
    ("sat f.cnf new", "content: LiteralRange 4 -3", "f.cnf:4: the literal -3 is beyond the variables of the header\n    2 -3 0\n      ^"),
    ("judge q.lls picture.cells", "content: BadCell 1 1", "picture.cells looks like plaintext (.cells), and a pattern has rows of cells, or RLE with --as rle; tools/place.py makes RLE of it"),
    ("sat word.cnf new", "content: BadWord 2", "word.cnf:2: 'x' is no number\n    1 x 0\n      ^"),
    ("sat satlib.cnf new", "content: Percent 3", "satlib.cnf:3: a %, as files of SATLIB end: take this line out, and those behind it\n    %\n    ^"),
    ("sat q.lls new", "content: NoHeader", "q.lls looks like rows of cells, and cnf prints the formula of such a search file"),
    (
        "search row.lls new --symmetry D8",
        "content: NotSquare 1 3",
        "--symmetry D8 exchanges rows and columns, and row.lls has 1 row of 3 cells",
    ),
    ("cnf q.lls --live 0:1-,2:-3", "content: NoGeneration 2", "--live 0:1-,2:-3 names generation 2, and q.lls has 2 generations, from 0"),
    ("cnf q.lls --differ 0,5", "content: NoGeneration 5", "--differ 0,5 names generation 5, and q.lls has 2 generations, from 0"),
    ("cnf q.lls --period 4,1,1", "content: PeriodTooLong 4", "--period 4,1,1 asks for 5 generations or more, and q.lls has 2 generations, from 0"),
    ("check q.lls f.lrta", "outside: NoFile", "there is no file 'f.lrta'; is it 'f.lrat'?"),
    ("check nowhere/q.lls f.lrat", "outside: NoFile", "there is no folder 'nowhere'"),
    ("cnf folder", "outside: ReadFailed", "'folder' is a folder"),
    ("search q.lls nowhere/new", "outside: CreateFailed", "there is no folder 'nowhere' for 'nowhere/new'"),
    ("cnf q.lls", "outside: OutFailed", "the standard output takes nothing more: it is closed, or its disk is full"),
]
STATUS = {"words": 2, "content": 3, "outside": 4, "limit": 6}


def split(line):
    return ["" if word == "''" else word for word in line.split()]


class Case(unittest.TestCase):
    """The wrapper in a folder of its own, over another program."""

    def setUp(self):
        folder = tempfile.TemporaryDirectory()
        self.addCleanup(folder.cleanup)
        self.top = folder.name
        os.makedirs(f"{self.top}/crates/lls/out")
        os.makedirs(f"{self.top}/folder")
        shutil.copy(f"{TOP}/lls", self.top)
        for name in ("tools", "docs"):
            os.symlink(f"{TOP}/{name}", f"{self.top}/{name}")
        self.write("crates.txt", "lls:\n")
        self.program(PROGRAM)
        for name, text in FILES.items():
            self.write(name, text)

    def write(self, name, text):
        with open(f"{self.top}/{name}", "w", encoding="utf-8") as file:
            file.write(text)

    def program(self, text):
        self.write("crates/lls/out/lls", text)
        os.chmod(f"{self.top}/crates/lls/out/lls", 0o755)
        # Newer than its sources, whenever these are written.
        os.utime(f"{self.top}/crates/lls/out/lls", (2**31, 2**31))

    def lls(self, *given, **environment):
        done = subprocess.run(
            ["./lls", *given], capture_output=True, cwd=self.top, env={**os.environ, **environment}, stdin=subprocess.DEVNULL, timeout=20, check=False
        )
        return done.returncode, done.stdout, done.stderr.decode()


class Forms(Case):
    """Files by the standard input, and patterns as plaintext. The program prints its words and the file that it is to read."""

    SAYS = '#!/bin/bash\necho "$@" >words\ncat "${FILE:-$2}"\nexit "${ENDS:-0}"\n'

    def given(self, text, *words, **environment):
        self.program(self.SAYS)
        done = subprocess.run(["./lls", *words], capture_output=True, cwd=self.top, env={**os.environ, **environment}, input=text.encode(), timeout=20, check=False)
        with open(f"{self.top}/words", encoding="utf-8") as file:
            return done.returncode, done.stdout.decode(), re.sub(r"/proc/\d+/fd/5|/\S*/pattern.rle", "FILE", file.read().strip())

    def test_the_standard_input(self):
        self.assertEqual(self.given("1 *\n", "--bare", "cnf", "-"), (0, "1 *\n", "cnf FILE"))
        self.assertEqual(self.given("#! --period 3\n1 *\n", "cnf", "-"), (0, "#! --period 3\n1 *\n", "cnf FILE --period 3"))
        # The file that is written isn't read, and of two none is.
        self.assertEqual(self.given("1 *\n", "search", "q.lls", "-", FILE="q.lls")[2], "search q.lls -")
        self.assertEqual(self.given("1 *\n", "check", "-", "-", FILE="q.lls")[2], "check - -")

    def test_rounds_have_the_options_of_the_file(self):
        # The formula of any question, which the first round refutes.
        self.program("#!/bin/bash\necho \"$@\" >>words\n[[ $1 = sat ]] || { [[ $1 = cnf ]] && echo 'p cnf 0 0'; exit 0; }\ntouch \"$3\"\nexit 20\n")
        self.write("p.lls", "#! --period 3\n*\n")
        for words in (("--seconds", "60"), ("--seconds", "60", "--seconds", "50"), ("--quiet", "--as-built", "--seconds", "60", "--bare")):
            self.write("words", "")
            status, out, _ = self.lls(*words, "search", "p.lls", "p")
            with open(f"{self.top}/words", encoding="utf-8") as file:
                asked = [line.split(" ", 1)[1] for line in file if line.startswith("cnf")]
            self.assertEqual((status, out, asked), (20, b"no pattern\n", ["p.lls --period=3\n"] if words[-1] != "--bare" else ["p.lls\n"]), words)
        self.assertEqual(self.lls("--seconds"), (2, b"", "lls: --seconds has no value\n"))
        self.assertEqual(self.lls("--from", "p", "least", "p.lls", "p")[0], 2)

    def test_plaintext_is_printed(self):
        self.write("answer", "least 2\n0 1\n1 0\n\n1 0\n0 0\n")
        want = "!least 2\n!Generation 0\n.O\nO.\n!Generation 1\nO.\n..\n"
        for words in (["--as", "cells"], ["--as=cells"]):
            self.assertEqual(self.given("", "least", "q.lls", "p", *words, "--period=1", FILE="answer", ENDS="10"), (10, want, "least q.lls p --period=1"))
        self.write("answer", "no pattern\n")
        self.assertEqual(self.given("", "search", "q.lls", "p", "--as=cells", FILE="answer", ENDS="20"), (20, "no pattern\n", "search q.lls p"))
        self.assertEqual(self.given("", "cnf", "q.lls", "--as=cells")[2], "cnf q.lls --as=cells")

    def test_plaintext_is_judged(self):
        self.write("g.cells", "!Name: two\n.O\n")
        status, out, words = self.given("", "judge", "q.lls", "g.cells", "--as", "cells", "--period", "1")
        self.assertEqual((status, words), (0, "judge q.lls FILE --period 1 --as rle"))


class KeptProofs(Case):
    """A search writes over PROOF, and a proof of another question is kept."""

    def kept(self, first_id, *words, out="p cnf 4 9\n"):
        """What is said, and the files of the proof behind it, by name."""
        self.write("proof", f"{first_id} 1 0 2 0\n")
        said = self.lls(*(words or ("search", "q.lls", "proof")), OUT=out, ENDS="20")[2]
        return said, sorted(it for it in os.listdir(self.top) if it.startswith("proof"))

    def test_of_another_question(self):
        said, files = self.kept(9)
        self.assertEqual((said, files), ("lls: 'proof' has a proof of another question, which is kept as 'proof.old'\n", ["proof", "proof.old"]))
        self.assertEqual(self.kept(7)[1], ["proof", "proof.old", "proof.old2"])
        with open(f"{self.top}/proof.old2", encoding="utf-8") as file:
            self.assertEqual(file.read(), "7 1 0 2 0\n")

    def test_of_the_same_question_or_none(self):
        rows = [
            (10, (), "p cnf 4 9\n"),
            ("no", (), "p cnf 4 9\n"),
            (9, (), "no formula\n"),
            (9, ("least", "q.lls", "proof"), "p cnf 4 9\n"),
            (9, ("check", "q.lls", "proof"), "p cnf 4 9\n"),
            (9, ("--quiet", "search", "q.lls", "proof"), "p cnf 4 9\n"),
        ]
        for first_id, words, out in rows:
            said, files = self.kept(first_id, *words, out=out)
            self.assertEqual(("is kept" in said, files), (False, ["proof"]), (first_id, words))


class Explanations(Case):
    def setUp(self):
        super().setUp()
        self.addCleanup(os.chdir, os.getcwd())
        os.chdir(self.top)

    def test_words(self):
        for line, fault, why in WORDS:
            with self.subTest(line):
                self.assertEqual(words.answer(split(line)), fault)
                self.assertEqual(explain.explanation(2, f"lls: words: {fault}", split(line)), why)

    def test_files(self):
        for line, fault, why in CONTENT:
            with self.subTest(line):
                self.assertEqual(words.answer(split(line)), "ok")
                self.assertEqual(explain.explanation(STATUS[fault.split(":")[0]], f"lls: {fault}", split(line)), why)

    def test_behind_the_programs_line(self):
        rows = [(line, f"words: {fault}", why) for line, fault, why in WORDS[:1]] + [CONTENT[0], CONTENT[-1], CONTENT[6]]
        self.assertEqual([fault.split(":")[0] for _, fault, _ in rows], ["words", "content", "outside", "limit"])
        for line, fault, why in rows:
            status = STATUS[fault.split(":")[0]]
            found = self.lls(*split(line), OUT="part", SAYS=f"lls: {fault}", ENDS=str(status))
            self.assertEqual(found, (status, b"part", f"lls: {fault}\nlls: {why}\n"))

    def test_unproved(self):
        os.makedirs("bin")
        search_path = f"{self.top}/bin:{os.environ['PATH']}"
        given = "--unproved cnf q.lls --edge shut".split()
        before = "lls: compiling without proofs; nothing is proved of this answer\n"
        said = "lls: words: BadValue 3\n"
        self.write("bin/rt", f"#!/bin/bash\necho noise >&2\necho '{said.strip()}' >&2\necho 'run=ended status=2 proved=no' >&2\nexit 2\n")
        os.chmod("bin/rt", 0o755)
        self.assertEqual(self.lls(*given, PATH=search_path), (2, b"", f"{before}{said}lls: --edge shut: one of closed open\n"))
        self.assertEqual(self.lls("--quiet", *given, PATH=search_path), (2, b"", before + said))

    def test_no_words(self):
        why = "the first word is the command, one of check search judge cnf sat lrat rule make least most open opencheck trim; ./lls --help says what each does"
        self.assertEqual(explain.explanation(2, "lls: words: NoCommand", []), why)

    def test_usage(self):
        for given in ([], ["2"], ["two", "lls: memory"]):
            done = subprocess.run(["tools/explain.py", *given], capture_output=True, text=True, timeout=20, check=False)
            self.assertEqual((done.returncode == 0, done.stdout), (False, ""))
            self.assertRegex(done.stderr, r"^explain\.py: ")
            self.assertNotIn("Traceback", done.stderr)

    def test_a_file_that_is_too_long(self):
        self.write("long.lls", "#" * 1_048_577)
        said = "lls: limit: TooLong 1048576"
        found = self.lls("cnf", "long.lls", SAYS=said, ENDS="6")
        self.assertEqual(found, (6, b"", f"{said}\nlls: long.lls has 1048577 bytes, and 1048576 are the most\n"))

    def test_a_long_line_is_cut_round_its_column(self):
        self.write("long.lls", "0 " * 300 + "? " + "1 " * 300 + "\n")
        said = "lls: content: BadCell 1 601"
        _, text, mark = self.lls("cnf", "long.lls", SAYS=said, ENDS="3")[2].splitlines()[1:]
        self.assertEqual((len(text), text[mark.index("^")]), (104, "?"))

    def test_words_that_are_no_text(self):
        said = "lls: words: UnknownCommand"
        found = self.lls(b"\xff\x1b[2J", SAYS=said, ENDS="2")
        self.assertEqual(found[2], f"{said}\nlls: no command '??[2J'; one of check search judge cnf sat lrat rule make least most open opencheck trim\n")

    def test_nothing_is_said_where_there_is_nothing_to_say(self):
        for said, status in [
            ("lls: memory", "5"),
            ("lls: content: BadCell 9 9", "3"),
            ("lls: words: SomethingNew 1", "2"),
            ("lls: content: Empty", "2"),
            ("Illegal instruction", "4"),
            ("lls: outside: NoFile", "4"),
        ]:
            self.assertEqual(self.lls("cnf", "q.lls", SAYS=said, ENDS=status), (int(status), b"", f"{said}\n"), said)

    def test_answers_get_no_explanation(self):
        for status in (0, 1, 5, 7, 10, 20, 30):
            self.assertEqual(self.lls("cnf", "nowhere", OUT="x", SAYS="lls: outside: NoFile", ENDS=str(status)), (status, b"x", "lls: outside: NoFile\n"))


class Streams(Case):
    SAYS = {"SAYS": "lls: words: UnknownCommand", "ENDS": "2"}

    def test_quiet(self):
        self.assertEqual(self.lls("--quiet", "fly", **self.SAYS), (2, b"", "lls: words: UnknownCommand\n"))
        self.assertEqual(self.lls("--quiet", **self.SAYS), (2, b"", "lls: words: UnknownCommand\n"))

    def test_without_python(self):
        os.makedirs(f"{self.top}/bin")
        for name in "bash cat dirname readlink find mktemp rm stat tail env grep".split():
            os.symlink(shutil.which(name), f"{self.top}/bin/{name}")
        self.assertEqual(self.lls("fly", PATH=f"{self.top}/bin", **self.SAYS), (2, b"", "lls: words: UnknownCommand\n"))

    def test_without_a_place_for_a_passing_file(self):
        self.assertEqual(self.lls("fly", TMPDIR="/nowhere", **self.SAYS), (2, b"", "lls: words: UnknownCommand\n"))

    def test_bytes_of_both_streams(self):
        self.program("#!/bin/bash\nprintf 'a\\0\\377b'\nprintf 'c\\0\\r\\n\\n d' >&2\nexit 3\n")
        self.assertEqual(self.lls("cnf", "q.lls"), (3, b"a\0\xffb", "c\0\r\n\n d"))

    def test_words_and_input_reach_the_program(self):
        self.program("#!/bin/bash\nprintf '<%s>' \"$@\"\ncat\nexit 20\n")
        done = subprocess.run(["./lls", "check", "a b", "*", ""], input=b"read", stdout=subprocess.PIPE, cwd=self.top, timeout=20, check=False)
        self.assertEqual((done.returncode, done.stdout), (20, b"<check><a b><*><>read"))

    def test_closed_streams(self):
        self.program("#!/bin/bash\necho answer || exit 4\ncat\nexit 20\n")
        for closed, status in (("<&-", 20), ("2>&-", 20), (">&-", 4), (">/dev/full", 4), (">&- 2>&- <&-", 4)):
            done = subprocess.run(["bash", "-c", f"./lls cnf {closed}"], stdin=subprocess.DEVNULL, capture_output=True, cwd=self.top, timeout=20, check=False)
            self.assertEqual((done.returncode, done.stdout), (status, b"answer\n" if status == 20 else b""), closed)

    def test_output_comes_at_once(self):
        self.program("#!/bin/bash\necho first\nread -r\nexit 0\n")
        with subprocess.Popen(["./lls", "cnf"], stdin=subprocess.PIPE, stdout=subprocess.PIPE, cwd=self.top) as run:
            self.assertEqual(run.stdout.readline(), b"first\n")
            self.assertIsNone(run.poll())
            run.stdin.close()
            self.assertEqual(run.wait(10), 0)

    def test_signals_end_the_program(self):
        for number in (signal.SIGTERM, signal.SIGINT, signal.SIGHUP):
            self.program("#!/bin/bash\necho $$\nexec sleep 60\n")
            with subprocess.Popen(["./lls", "cnf"], stdout=subprocess.PIPE, stderr=subprocess.PIPE, cwd=self.top) as run:
                process = int(run.stdout.readline())
                run.send_signal(number)
                self.assertEqual((run.wait(10), run.stderr.read()), (-number, b""))
            with self.assertRaises(ProcessLookupError):
                os.kill(process, 0)

    def test_a_program_that_a_signal_ends(self):
        self.program("#!/bin/bash\nkill -KILL $$\n")
        self.assertEqual(self.lls("cnf"), (-signal.SIGKILL, b"", ""))

    def test_no_descriptor_is_left_to_the_program(self):
        self.program("#!/bin/bash\n[ ! -e /dev/fd/3 ] && echo none\n")
        self.assertEqual(self.lls("cnf"), (0, b"none\n", ""))


class Refused(Case):
    """What refused.py says of a proof that isn't taken; the program prints a formula of three clauses."""

    ROWS = [
        (b"4 1 0 1 2 0\n5 0 4 3 0\n", []),
        (b"5 1 0 1 2 0\n6 0 4 3 0\n", ["the first step of p has the id 5, and the formula of these words has 3 clauses: is it the formula that the proof was found with?"]),
        (b"4 1 0 1 2 0\n5 d 4 0\n", ["the last line of p adds no empty clause: the log of an undecided search, or a file that was cut off"]),
        (b"4 1 0 1 2 0\n5 0 4 ", ["the last line of p adds no empty clause: the log of an undecided search, or a file that was cut off"]),
        (b"\x1f\x8b\x08\x00", ["p is compressed with gzip: `gzip -d` makes the text of it"]),
        (b"a\x02\x04\x00", ["p is no text: binary DRAT or LRAT isn't read here"]),
    ]

    def setUp(self):
        super().setUp()
        self.addCleanup(os.chdir, os.getcwd())
        os.chdir(self.top)

    def notes(self, *given):
        done = subprocess.run(["tools/refused.py", "./program", *given], capture_output=True, text=True, timeout=20, check=True)
        return [line.removeprefix("lls: note: ") for line in done.stdout.splitlines()]

    def test_what_is_seen(self):
        self.write("program", '#!/bin/bash\n[ "$*" = "cnf q.lls --period=3" ] && printf "p cnf 2 3\\n1 0\\n"\n')
        os.chmod("program", 0o755)
        self.write("f", "c a comment\np cnf 2 3\n1 0\n-1 0\n2 0\n")
        for proof, notes in self.ROWS:
            with open("p", "wb") as file:
                file.write(proof)
            self.assertEqual(self.notes("check", "q.lls", "p", "--period", "3"), notes)
            self.assertEqual(self.notes("lrat", "f", "p"), [note.replace("the formula of these words", "the file") for note in notes])

    def test_behind_the_answer(self):
        note = f"lls: note: {self.ROWS[2][1][0]}\n"
        self.assertEqual(self.lls("check", "q.lls", "p", OUT="refused", ENDS="1"), (1, b"refused", note))
        self.assertEqual(self.lls("--quiet", "check", "q.lls", "p", OUT="refused", ENDS="1"), (1, b"refused", ""))
        self.assertEqual(self.lls("check", "q.lls", "p", OUT="accepted", ENDS="0"), (0, b"accepted", ""))

    def test_broken_demands_in_words(self):
        rows = {
            "Size": "the pattern and the search file have other numbers of generations, rows or columns",
            "Moved 0 -1 4": "generation 0, row -1, column 4, counted from 0, in the ring round the grid: what is there isn't there again a period later, moved by the shift",
            "Population 1 7": "generation 1 has 7 live cells, and --live asks for another number",
            "Same": "the two generations of --differ are equal",
            "Shorter 3": "the period isn't exact: generation 3 is generation 0 already, moved along the same line",
        }
        for said, note in rows.items():
            status, out, err = self.lls("judge", "q.lls", "p", OUT=f"broken: {said}", ENDS="1")
            self.assertEqual((status, out, err), (1, f"broken: {said}".encode(), f"lls: note: {note}\n"))
        self.assertEqual(self.lls("judge", "q.lls", "p", OUT="meets", ENDS="0"), (0, b"meets", ""))

    def test_nothing_is_said_where_nothing_is_seen(self):
        for line in ("check q.lls none", "search q.lls p", "check q.lls", "", "judge q.lls p"):
            self.assertEqual(self.notes(*line.split()), [])


class Moves(Case):
    """What moves.py says of moves that a symmetry leaves to nothing."""

    # By symmetry the moves that are left, of those one column to the right, one row down, and along both diagonals.
    LEFT = {"C1": "1,0 0,1 1,1 1,-1", "C2": "", "C4": "", "D2-": "1,0", "D2|": "0,1", "D2\\": "1,1", "D2/": "1,-1", "D4+": "", "D4x": "", "D8": ""}

    def note(self, *given):
        return subprocess.run([f"{TOP}/tools/moves.py", *given], capture_output=True, text=True, timeout=20, check=True).stdout

    def test_moves_that_are_left(self):
        for symmetry, left in self.LEFT.items():
            for move in ("1,0", "0,1", "1,1", "1,-1"):
                said = "" if move in left.split() else (
                    f"lls: note: nothing alive moves by {move} and is symmetric by {symmetry} about one middle in every generation, in however large a box\n"
                )
                self.assertEqual(self.note("search", "q.lls", "p", "--symmetry", symmetry, f"--period=4,{move}"), said)
            self.assertEqual(self.note("search", "q.lls", "p", "--symmetry", symmetry, "--period", "4"), "")

    def test_behind_the_answer(self):
        given = "search q.lls p --symmetry C2 --period 4,1,0".split()
        status, out, err = self.lls(*given, OUT="no pattern", ENDS="20")
        self.assertEqual((status, out), (20, b"no pattern"))
        self.assertTrue(err.startswith("lls: note: nothing alive moves by 1,0 "))
        self.assertEqual(self.lls(*given, OUT="undecided", ENDS="10")[2], "")


class Notes(Case):
    """What the wrapper says of a picture behind the program's answer."""

    NOTE = "lls: note: high.rle names the rule B36/S23, and is judged under B3/S23; --rule B36/S23 judges it under its own\n"

    def test_behind_the_answer(self):
        self.write("high.rle", "x = 1, y = 1, rule = HighLife\no!\n")
        judged = "judge q.lls high.rle --as rle".split()
        self.assertEqual(self.lls(*judged, OUT="meets", ENDS="0"), (0, b"meets", self.NOTE))
        self.assertEqual(self.lls("--quiet", *judged, OUT="meets", ENDS="0"), (0, b"meets", ""))
        self.assertEqual(self.lls(*judged, "--rule=B36/S23", OUT="meets", ENDS="0"), (0, b"meets", ""))
        self.assertEqual(self.lls(*judged, OUT="", ENDS="5"), (5, b"", ""))

    def test_behind_a_refusal_and_what_explains_it(self):
        given = "judge q.lls glider.rle --as=rle".split()
        status, out, err = self.lls(*given, SAYS="lls: content: TooWide 1", ENDS="3")
        self.assertEqual((status, out, err.splitlines()[2]), (3, b"", "lls: note: glider.rle is 3 wide and 3 high, and the grid of q.lls 2 by 2; tools/place.py places a picture elsewhere in it"))


class Help(Case):
    def test_ways_to_the_help(self):
        self.program("#!/bin/bash\necho ran\n")
        whole = self.lls("--help")
        self.assertTrue(whole[1].startswith(b"lls: searches"))
        for line in ("-h", "help", "--posed --help", "--unproved -h"):
            self.assertEqual(self.lls(*line.split()), whole, line)
        part = self.lls("--help", "search")
        self.assertTrue(part[1].startswith(b"    lls search "))
        for line in ("help search", "-h search", "search --help", "search -h", "search q.lls p --edge open --help", "--posed search --help"):
            self.assertEqual(self.lls(*line.split()), part, line)
        self.assertEqual(self.lls("fly", "--help"), (2, b"", "lls: no command 'fly'; ./lls --help names them\n"))

    def test_no_words(self):
        status, out, err = self.lls()
        self.assertEqual((status, out, len(err.splitlines())), (2, b"", 10))
        named = err.partition("Commands: ")[2].partition(".\n")[0].split(", ")
        self.assertEqual(sorted(named), sorted(words.COMMANDS))


class Terminal(Case):
    """The wrapper on a terminal: what it shows there, and what Ctrl-C leaves. It shows what runs after a second, and not after five."""

    RUNNING = r"\r\x1b\[Klls: search q\.lls new: 0:0\d(, \d+ MiB)?"

    def setUp(self):
        super().setUp()
        # A proof of which there is nothing to say.
        self.write("p", "4 0 1 0\n")
        with open(f"{TOP}/lls", encoding="utf-8") as file:
            text = file.read()
        self.assertEqual(text.count("\nshown_after=5\n"), 1)
        self.write("lls", text.replace("\nshown_after=5\n", "\nshown_after=1\n"))

    def on_terminal(self, *given, interrupt_at=None):
        """Returns the status and what is shown. Types Ctrl-C when that file is there."""
        process, terminal = pty.fork()
        if process == 0:
            os.chdir(self.top)
            os.execv(given[0], given)
        shown, began = b"", time.monotonic()
        while time.monotonic() - began < 20:
            if interrupt_at and os.path.exists(f"{self.top}/{interrupt_at}"):
                os.write(terminal, b"\x03")
                interrupt_at = None
            try:
                shown += os.read(terminal, 4096) if select.select([terminal], [], [], 0.05)[0] else b""
            except OSError:
                break
        os.close(terminal)
        return os.waitstatus_to_exitcode(os.waitpid(process, 0)[1]), shown.decode().replace("\r\n", "\n")

    def test_what_runs_is_shown_and_taken_away(self):
        self.program("#!/bin/bash\nsleep 2.3\nprintf '1 0\\n0 1\\n'\necho 'lls: odd' >&2\nexit 10\n")
        status, shown = self.on_terminal("./lls", "search", "q.lls", "new")
        self.assertEqual(status, 10)
        self.assertRegex(shown, rf"^({self.RUNNING})+\r\x1b\[K1 0\n0 1\nlls: odd\n$")
        self.assertRegex(shown, r", \d+ MiB")

    def test_output_to_a_file_is_the_programs_own(self):
        self.program("#!/bin/bash\n[ -f /dev/stdout ] || exit 9\nsleep 1.5\necho answer\nexit 20\n")
        status, shown = self.on_terminal("/bin/bash", "-c", "./lls search q.lls new >out")
        self.assertEqual(status, 20)
        self.assertRegex(shown, rf"^({self.RUNNING})+\r\x1b\[K$")
        with open(f"{self.top}/out", encoding="utf-8") as file:
            self.assertEqual(file.read(), "answer\n")

    def test_where_nothing_is_shown(self):
        self.program("#!/bin/bash\nsleep 1.5\necho answer\nexit 1\n")
        for line in ("./lls --quiet check q.lls p", "./lls check q.lls p 2>&1 | cat; exit 1", "set -m; ./lls check q.lls p & wait %1 2>/dev/null"):
            with self.subTest(line):
                self.assertEqual(self.on_terminal("/bin/bash", "-c", line), (1, "answer\n"))
        self.program("#!/bin/bash\necho answer\nexit 1\n")
        self.assertEqual(self.on_terminal("./lls", "check", "q.lls", "p"), (1, "answer\n"))

    def test_all_output_comes_before_the_programs_line(self):
        self.program("#!/bin/bash\nseq 20000\necho 'lls: odd' >&2\nexit 4\n")
        wanted = "".join(f"{number}\n" for number in range(1, 20001))
        self.assertEqual(self.on_terminal("./lls", "cnf", "q.lls"), (4, wanted + "lls: odd\n"))

    def test_explanations_on_a_terminal(self):
        self.program("#!/bin/bash\necho 'lls: words: UnknownCommand' >&2\nexit 2\n")
        self.assertEqual(self.on_terminal("./lls", "serch"), (2, "lls: words: UnknownCommand\nlls: no command 'serch'; is it search?\n"))

    def test_interrupts(self):
        for number, (line, does, left) in enumerate(
            [
                ("search q.lls f.lrat", ":", "nothing was written to f.lrat"),
                ("search q.lls --edge open new", ":", "nothing was written to new"),
                ("check q.lls f.lrat", ":", "nothing was written"),
                ("cnf q.lls", ":", "what it printed may not be whole"),
                ("search q.lls new", "echo 1 > new", "written to, and perhaps not whole: new"),
                ("make 1 8 made.lls log", "echo 1 > made.lls", "written to, and perhaps not whole: made.lls"),
                ("trim f.cnf f.lrat new", ":", "nothing was written to new"),
            ]
        ):
            self.program(f"#!/bin/bash\n{does}\ntouch ready{number}\nexec sleep 60\n")
            found = self.on_terminal("./lls", *line.split(), interrupt_at=f"ready{number}")
            self.assertEqual(found, (-signal.SIGINT, f"^Clls: stopped; {left}\n"), line)


if __name__ == "__main__":
    # A gate that runs in the background has Ctrl-C ignored, and so would all that is started here.
    signal.signal(signal.SIGINT, signal.default_int_handler)
    signal.signal(signal.SIGTERM, signal.SIG_DFL)
    signal.signal(signal.SIGHUP, signal.SIG_DFL)
    sys.exit(not unittest.main(exit=False, verbosity=0).result.wasSuccessful())
