#!/usr/bin/env python3
"""Spreads the search for an absence over processors or machines, and joins the pieces' proofs into one proof of the whole.

    spread.py start SEARCH FOLDER [problem options] [--bare] [--budget N] [--cells N] [--lls PROGRAM]
    spread.py run FOLDER [-- options of GNU parallel]
    spread.py next FOLDER [--age SECONDS]
    spread.py join FOLDER PROOF [--trimmed]
    spread.py look FOLDER

`start` takes the search file, the options of its question (--rule, --edge, --symmetry, --period, --exact, --live, --differ) and how its
formula is made (--images, --formula), which are those of the file's line `#!` where the words have none and not --bare, and lays out the first pieces in FOLDER: in each N unknown cells of generation 0 are
fixed one way, those that stand most often in the first 2,000 clauses that a search learns. Where --cells isn't given, short searches of a few parts say whether there is a piece for each processor here, or whether there are four.
`run` searches all open pieces in rounds, each within its budget (100,000 for the first ones), by GNU
parallel (Debian's package `parallel`): over this machine's processors, or with `-- --sshloginfile HOSTS` over many machines that have the
program under the same name, and `rsync`. A piece whose budget is spent goes on in the other manner, and where that spends it too it is split, by one more cell or by three at once where short searches close neither half of it; its parts get twice the budget.
Nothing of this begins anew: the 2,000 shortest clauses that were learnt go along, and what they rest on is part of the proof in the end. `run` can be
killed at any time and begun again; a piece counts only where its answer stands whole and comes from the program that `start` had: its sum goes with each answer. It ends with 20 where every piece is closed,
and with 10 where one has a pattern, which fits the whole file too and is judged against it.

All pieces are searched by the formula of the whole, with what fixes their cells behind it. With --images one the cells are fixed row by row, as a generation is compared with its images: a piece that has no
first one of its kind to leave is refuted by the clauses that say so, soon.

`next` is for queues of jobs, and needs no GNU parallel: it searches one open piece and ends with 0, or with 30 where none is free just now, and as `run` does where
nothing is left. Any number of them may run at once over a folder that their machines share, but not beside `run`. A piece is locked by a file, which counts no more when it
is older than --age (a day): whoever made it is gone then.

`join` writes the proof that no generations fit SEARCH and the options, and has `lls check` look at it. It reads the pieces' proofs
line by line, as many at once as there are processors, so its memory goes with the clauses that are in use at a time. With --trimmed it has `lls trim` leave out what the whole doesn't need, which takes memory for the whole.
`look` says how a search stands: which pieces are open, what runs where and since when, and how long the rest may take, which is the time of the closed pieces times the share of the
space that is open over that which is closed.

Nothing here has to be trusted: `lls check SEARCH PROOF [options]` shows the absence, and `lls judge` a pattern.
"""
import argparse
import collections
import concurrent.futures
import functools
import hashlib
import itertools
import json
import multiprocessing
import os
import random
import re
import shlex
import shutil
import socket
import subprocess
import sys
import tempfile
import time

import ending
from learnt import live_behind, shortest
from pattern import pattern_of
from refute import read_search_file
from with_solver import without_making

OPTIONS = ("rule", "edge", "symmetry", "period", "exact", "live", "differ", "images", "formula")
FIRST_BUDGET, MOST_BUDGET = 100_000, 10_000_000
# What a short search may learn, how many parts of a piece are searched so at most, and by how many cells the whole is split where more than half of its parts end so if it is small.
PROBE_BUDGET, PROBES, SMALL_PARTS = 2_000, 8, 9
# So many clauses a search takes from those of a piece before it.
MOST_CARRIED = 2_000
# the seconds of a day
MOST_AGE = 86_400
PATTERN, ABSENT, UNDECIDED = 10, 20, 30
# An addition of the empty clause, which ends the proof of an absence, and any step.
EMPTY = re.compile(r"\d+ 0( \d+)* 0\n?$")
STEP = re.compile(r"\d+ .*\b0\n$")


class Stop(Exception):
    """What keeps a search from going on, with why."""


class Piece:
    """A piece: the cells of the order that are fixed, each one way. Its name is `r` and a digit for each."""

    def __init__(self, spread, name):
        self.spread, self.name = spread, name

    def depth(self):
        return len(self.name) - 1

    def path(self, ending_):
        return f"{self.spread.folder}/pieces/{self.name}.{ending_}"

    def has(self, ending_):
        return os.path.exists(self.path(ending_))

    def parts(self):
        return [Piece(self.spread, self.name + digit) for digit in "01"]

    def above(self):
        """Returns the pieces of which it is a part, the whole first."""
        return [Piece(self.spread, self.name[:end]) for end in range(1, len(self.name))]

    def learnt(self):
        """Returns in how many searches it wasn't decided, and the clauses that the next one takes from them."""
        if not self.has("live"):
            return 0, []
        with open(self.path("live"), "rb") as file:
            return int(file.readline()), file.read().splitlines()

    def searches(self):
        """Returns the names of the files with what its searches learnt, one after the other."""
        undecided = [self.path(str(number + 1)) for number in range(self.learnt()[0])]
        return undecided + [self.path("proof")] * self.has("proof")

    def handed(self):
        """Returns the clauses that were learnt of the pieces above it, which hold for it too."""
        return [clause for piece in self.above() for clause in piece.learnt()[1]]

    def split_by(self):
        """Returns by how many cells at once it is split, 0 where it isn't."""
        if not self.has("split"):
            return 0
        with open(self.path("split"), encoding="ascii") as file:
            return int(file.read())

    def fixed(self):
        """Returns the fixed cells with their values, by place."""
        return dict(zip(self.spread.order, self.name[1:]))

    def generations(self):
        fixed, generations = self.fixed(), [[list(row) for row in rows] for rows in self.spread.generations]
        for (y, x), digit in fixed.items():
            generations[0][y][x] = generations[0][y][x].replace("*", digit)
        return generations

    def tries(self):
        """Returns how often the budget was doubled since no cell is left to fix."""
        if not self.has("tries"):
            return 0
        with open(self.path("tries"), encoding="ascii") as file:
            return int(file.read())

    def manner(self):
        """Returns the manner of its next search: that which goes without saying, and then the other one."""
        first, other = manners_of(self.spread.options)
        return other if self.has("other") else first

    def took(self):
        """Returns on which machine it was closed and in how many seconds, if that is known."""
        if not self.has("took"):
            return "", 0.0
        with open(self.path("took"), encoding="ascii") as file:
            machine, seconds = file.read().split()
        return machine, float(seconds)

    def budget(self):
        splits = sum(piece.has("split") for piece in self.above())
        return min(MOST_BUDGET, self.spread.budget * 2 ** (splits + self.tries()))


class Spread:
    """A search that is laid out in a folder."""

    def __init__(self, folder):
        self.folder = folder
        try:
            with open(f"{folder}/asked.json", encoding="utf-8") as file:
                asked = json.load(file)
        except OSError:
            raise Stop(f"{folder}: no search is laid out here; `start` does that") from None
        self.options, self.budget, self.cells = asked["options"], asked["budget"], asked["cells"]
        self.clauses, self.program, self.sum = asked["clauses"], asked["lls"], asked.get("sum")
        with open(f"{folder}/search.lls", encoding="utf-8") as file:
            self.text = file.read()
        self.generations = read_search_file(self.text)
        if "order" not in asked:
            raise Stop(f"{folder}: it was laid out by another spread.py; `start` does that anew")
        self.order = list(map(tuple, asked["order"]))

    @functools.cached_property
    def formula(self):
        """The head of the whole's formula, but for how many clauses it has, and its clauses."""
        header, _, clauses = self.lls("cnf", f"{self.folder}/search.lls", *self.options).stdout.partition("\n")
        return " ".join(header.split()[:3]), clauses

    def lls(self, *words):
        return subprocess.run([self.program, *words], capture_output=True, text=True, encoding="utf-8", check=False)

    def leaves(self):
        """Yields the pieces that aren't split, from the left."""
        waiting = [(Piece(self, "r"), self.cells)]
        while waiting:
            piece, cells = waiting.pop()
            cells = cells or piece.split_by()
            if cells:
                waiting += [(part, cells - 1) for part in reversed(piece.parts())]
            else:
                yield piece


def manners_of(options):
    """Returns the manner that a search with these options goes about it by where none is said, or steady where it is aiming, which has no word, and the other one."""
    said = dict(option[2:].split("=", 1) for option in options)
    period, *move = map(int, said.get("period", "0").split(","))
    stays = not any(move)
    is_steady = period >= 4 or period == 3 and stays or period == 0 and said.get("edge") == "open"
    return ("steady", "restless") if is_steady else ("restless", "steady")


def made_of(program):
    """Returns the file whose bytes say which program this is: of the repository's wrapper, what it runs."""
    built = f"{os.path.dirname(os.path.realpath(program))}/crates/lls/out/lls"
    return built if os.path.exists(built) else program


def sum_of(name):
    with open(name, "rb") as file:
        return hashlib.sha256(file.read()).hexdigest()


def unknown_cells(rows):
    """Returns the unknown cells of a generation, as row and column, by rows: so a generation is compared with its images."""
    return [(y, x) for y, row in enumerate(rows) for x, word in enumerate(row) if word.rstrip("'") == "*"]


def splitting_order(rows):
    """Returns the unknown cells of a generation, as row and column, the nearest to the middle first."""
    height, width = len(rows), len(rows[0])
    return sorted(unknown_cells(rows), key=lambda cell: ((2 * cell[0] - height + 1) ** 2 + (2 * cell[1] - width + 1) ** 2, cell))


def write_whole(path, text):
    """Writes a file that is there whole or not at all."""
    with open(f"{path}.new", "w", encoding="utf-8") as file:
        file.write(text)
    os.replace(f"{path}.new", path)


# Laying out.


def clause_count(program, search, options):
    """Returns how many clauses the formula of a search file has."""
    with subprocess.Popen([program, "cnf", search, *options], stdout=subprocess.PIPE, stderr=subprocess.PIPE, text=True) as made:
        head = made.stdout.readline().split()
        if head[:2] != ["p", "cnf"]:
            raise Stop(f"lls cnf says: {made.stderr.read().strip()}")
        made.kill()
    return int(head[3])


def options_in(text):
    """Returns the options that a search file has on its line `#!`, each as one word, as `lls` takes them."""
    line = next((line[2:].strip() for line in text.split("\n") if line.startswith("#!")), "")
    if not line.startswith("--"):
        return []
    said = re.sub(r"(--[a-z]+)[ \t]+(?!--)", r"\1=", line).split()
    for option in said:
        if option.partition("=")[0].removeprefix("--") not in OPTIONS or not option.partition("=")[2]:
            raise Stop(f"'{option}' on the file's line '#!' is no option of a question that can be spread")
    return said


def start(words):
    if os.path.exists(words.folder):
        raise Stop(f"{words.folder} is there already")
    options = [f"--{name}={value}" for name in OPTIONS if (value := getattr(words, name)) is not None]
    with open(words.search, encoding="utf-8") as file:
        text = file.read()
    if not options and not words.bare:
        options = options_in(text)
        if options:
            print("with the options that the file's line '#!' has (--bare leaves them out):", *options)
    # What the file says of its options stands in asked.json, and nowhere else.
    text = "".join(line for line in text.splitlines(keepends=True) if not line.startswith("#!"))
    clauses = clause_count(words.lls, words.search, options)
    free = len(unknown_cells(read_search_file(text)[0]))
    if words.cells is not None and words.cells > free:
        raise Stop(f"generation 0 has {free} unknown cells to fix, and not {words.cells}")
    os.makedirs(f"{words.folder}/pieces")
    try:
        write_whole(f"{words.folder}/search.lls", text)
        words.text = text
        asked = {"options": options, "budget": words.budget, "cells": words.cells or 0, "clauses": clauses, "lls": os.path.abspath(words.lls), "sum": sum_of(made_of(words.lls))}
        lay_out(words, asked)
    except BaseException:
        shutil.rmtree(words.folder)
        raise
    return 0


def lay_out(words, asked):
    """Chooses the cells to split by, and how many of them, by short searches, and writes down what is asked."""
    generation = read_search_file(words.text)[0]
    # With one solution of each kind a generation is compared with its images in this order.
    asked["order"] = unknown_cells(generation)
    if "--images=one" not in asked["options"]:
        asked["order"] = busiest_cells(laid_out(words, asked), generation)
    if words.cells is None:
        asked["cells"] = cells_to_begin_with(laid_out(words, asked), len(os.sched_getaffinity(0)))
    laid_out(words, asked)
    print(f"{2 ** asked['cells']} pieces, each with a budget of {words.budget:,}")


def laid_out(words, asked):
    write_whole(f"{words.folder}/asked.json", json.dumps(asked) + "\n")
    return Spread(words.folder)


# Short searches.


class Search:
    """A search of a piece, with its files, which are gone behind it."""

    def __init__(self, piece):
        self.piece, self.spread = piece, piece.spread
        self.formula, self.part, self.out = (piece.path(f"{name}.{whose()}") for name in ("cnf", "part", "out"))

    def __enter__(self):
        (head, clauses), more = self.spread.formula, text_of(self.piece)
        with open(self.formula, "w", encoding="ascii") as file:
            file.write(f"{head} {self.spread.clauses + more.count(chr(10))}\n{clauses}{more}")
        return self

    def __exit__(self, *_):
        for path in (self.formula, self.part, self.out):
            if os.path.exists(path):
                os.remove(path)

    def run(self, budget):
        """Searches within a budget, and returns the status. What is learnt stands in `part` then, and what is printed in `out`."""
        words = [self.spread.program, "sat", self.formula, self.part, f"--budget={budget}", f"--manner={self.piece.manner()}"]
        with open(self.out, "wb") as file:
            done = subprocess.run(words, stdin=subprocess.DEVNULL, stdout=file, stderr=subprocess.PIPE, check=False)
        if done.returncode not in (PATTERN, ABSENT, UNDECIDED):
            raise Stop(f"{self.piece.name}: {done.stderr.decode(errors='replace').strip() or f'status {done.returncode}'}")
        return done.returncode


def busiest_cells(spread, generation):
    """Returns the unknown cells of generation 0, as row and column, those first that stand most often in the first clauses that a search learns."""
    width, counts = len(generation[0]), collections.Counter()
    with Search(Piece(spread, "r")) as search:
        if search.run(PROBE_BUDGET) != PATTERN:
            with open(search.part, encoding="ascii") as file:
                for words in map(str.split, file):
                    if words[1] != "d":
                        counts.update(word.lstrip("-") for word in words[1 : words.index("0", 1)])
    return sorted(splitting_order(generation), key=lambda cell: -counts[str(1 + cell[1] + width * cell[0])])


def is_soon_done(piece):
    """Says whether a short search closes a piece, or finds a pattern in it."""
    with Search(piece) as search:
        return search.run(PROBE_BUDGET) != UNDECIDED


def share_done(piece, cells):
    """Returns which share of a piece's parts a short search closes, where it is split by so many cells, of a few that are drawn."""
    cells = min(cells, len(piece.spread.order) - piece.depth())
    chosen = random.Random(piece.name).sample(range(2**cells), min(PROBES, 2**cells))
    parts = [Piece(piece.spread, piece.name + f"{number:0{cells}b}" * bool(cells)) for number in chosen]
    with concurrent.futures.ThreadPoolExecutor(len(os.sched_getaffinity(0))) as threads:
        return sum(threads.map(is_soon_done, parts)) / len(parts)


def cells_for(pieces):
    """Returns how many cells to fix for so many pieces or more."""
    return (pieces - 1).bit_length()


def cells_to_begin_with(spread, processors):
    """Returns how many cells are fixed at first: for a piece on each processor, and for four of them where the whole is large, since they aren't equally hard."""
    is_small = share_done(Piece(spread, "r"), SMALL_PARTS) > 0.5
    return min(len(spread.order), cells_for(processors if is_small else 4 * processors))


def cells_to_split(piece):
    """Returns by how many cells at once a piece is split that isn't decided: by more where it is far from done, so that no half of it is."""
    is_far = share_done(piece, 1) == 0
    return min(len(piece.spread.order) - piece.depth(), 3 if is_far else 1)


# Rounds.

# What searches a piece: the formula of the whole, and behind it what fixes its cells and what is known of it.
SEARCH = (
    "{lls} cnf search.lls {options} 2>pieces/{{1}}.err | awk -v name=pieces/{{1}}.fixed "
    "'BEGIN {{ while ((getline clause <name) > 0) fixed[count++] = clause }} NR == 1 {{ $4 += count }} {{ print }} "
    "END {{ for (k = 0; k < count; k++) print fixed[k] }}' >pieces/{{1}}.cnf; "
    "{lls} sat pieces/{{1}}.cnf pieces/{{1}}.part"
)

# One job: the search, and a file that holds its status, the program's sum, the machine and the seconds, and behind them what it found, under its
# final name only where it is whole.
JOB = (
    "b=$(date +%s); echo $(hostname) $b >pieces/{{1}}.runs; "
    "{search} --budget={{2}} --manner={{3}} >pieces/{{1}}.out 2>>pieces/{{1}}.err; s=$?; rm -f pieces/{{1}}.runs pieces/{{1}}.cnf; "
    "case $s in 10) f=pieces/{{1}}.out;; 20|30) f=pieces/{{1}}.part;; *) cat pieces/{{1}}.err >&2; exit $s;; esac; "
    "m=$(sha256sum <{made}); ( echo $s ${{m%% *}} $(hostname) $(($(date +%s) - b)) && cat $f ) >pieces/{{1}}.new && mv pieces/{{1}}.new pieces/{{1}}.ended; "
    "rm -f pieces/{{1}}.new pieces/{{1}}.part pieces/{{1}}.out pieces/{{1}}.err"
)


def text_of(piece):
    """Returns the clauses of a piece behind those of the whole: what fixes its cells, what was learnt of the pieces above it, and what was learnt of itself."""
    fixed = [b"%d" % -lit for lit in negations(piece)]
    return "".join(f"{clause.decode('ascii')} 0\n" for clause in [*fixed, *piece.handed(), *piece.learnt()[1]])


def search_round(spread, pieces, more):
    """Searches pieces by GNU parallel, and returns whether it could."""
    for piece in pieces:
        write_whole(piece.path("fixed"), text_of(piece))
    write_whole(f"{spread.folder}/round", "".join(f"{piece.name}\t{piece.budget()}\t{piece.manner()}\n" for piece in pieces))
    options = " ".join(map(shlex.quote, spread.options))
    search = SEARCH.format(lls=shlex.quote(spread.program), options=options)
    job = JOB.format(search=search, made=shlex.quote(made_of(spread.program)))
    words = ["parallel", "--will-cite", "--joblog", "joblog", "--colsep", "\t", "-a", "round"]
    if any(word.startswith(("--sshlogin", "-S")) for word in more):
        words += ["--basefile", "search.lls", "--transferfile", "pieces/{1}.fixed", "--return", "pieces/{1}.ended", "--cleanup"]
    with subprocess.Popen([*words, *more, job], cwd=spread.folder) as parallel:
        show_round(spread, pieces, parallel)


def take_ended(spread, piece):
    """Takes what a job left of a piece, if it ended, and returns its status."""
    if not piece.has("ended"):
        return None
    with open(piece.path("ended"), "rb") as file:
        head = file.readline().decode("ascii").split()
        status, is_ours = int(head[0]), spread.sum in (None, head[1])
        if not is_ours or not is_whole(piece, status):
            os.remove(piece.path("ended"))
            print(f"{piece.name} is searched again: {'what it learnt is cut off' if is_ours else f'{head[2]} has another program'}", file=sys.stderr)
            return None
        if status == UNDECIDED:
            keep_learnt(piece, file)
        else:
            keep_answer(piece, status, file)
            write_whole(piece.path("took"), f"{head[2]} {head[3]}\n")
    if status == UNDECIDED:
        go_further(spread, piece)
    os.remove(piece.path("ended"))
    return status


def is_whole(piece, status):
    """Says whether what a job left ends as it has to."""
    end = last_line(piece.path("ended"))
    return status == PATTERN or bool((EMPTY if status == ABSENT else STEP).match(end))


def keep_answer(piece, status, file):
    """Keeps a proof, or makes a pattern of a model."""
    kept = piece.path("pattern" if status == PATTERN else "proof")
    if status == PATTERN:
        write_whole(kept, "\n".join(pattern_of(piece.spread.text, file.read().decode("ascii"))) + "\n")
        return
    with open(f"{kept}.new", "wb") as to:
        shutil.copyfileobj(file, to)
    os.replace(f"{kept}.new", kept)


def keep_learnt(piece, file):
    """Keeps what a search learnt that didn't decide a piece, and which of it the next one takes."""
    many, clauses = piece.learnt()
    with open(piece.path("new"), "wb") as to:
        shutil.copyfileobj(file, to)
    live = dict(zip(own_ids(piece), clauses))
    with open(piece.path("new"), "rb") as steps:
        live_behind(steps, live)
    os.replace(piece.path("new"), piece.path(str(many + 1)))
    # What stands here counts: a file of steps without it is written anew.
    write_whole(piece.path("live"), "".join(f"{line}\n" for line in [many + 1, *(live[word].decode("ascii") for word in shortest(live, MOST_CARRIED))]))


def own_ids(piece, handed=None):
    """Yields the ids, in its formula, of the clauses that a search of a piece takes from those before it: behind those of the whole, of its cells, and of the pieces above it."""
    first = piece.spread.clauses + piece.depth() + (len(piece.handed()) if handed is None else handed) + 1
    return (b"%d" % number for number in itertools.count(first))


def go_further(spread, piece):
    """Says how a piece is gone on with that isn't decided: in the other manner, in parts, or with a greater budget."""
    if not piece.has("other"):
        write_whole(piece.path("other"), "")
    elif piece.depth() < len(spread.order):
        write_whole(piece.path("split"), str(cells_to_split(piece)))
    elif piece.budget() == MOST_BUDGET:
        raise Stop(f"{piece.name} has no cell left to fix, and is undecided with the greatest budget")
    else:
        write_whole(piece.path("tries"), str(piece.tries() + 1))
        os.remove(piece.path("other"))


def last_line(path):
    """Returns the last line of a file, of which no more than that is read where it is short."""
    with open(path, "rb") as file:
        end, size = b"", file.seek(0, os.SEEK_END)
        while size > 0 and b"\n" not in end.rstrip(b"\n"):
            size = max(0, size - 65_536)
            file.seek(size)
            end = file.read()
    return end.rstrip(b"\n").rpartition(b"\n")[2].decode("ascii", "replace") + ("\n" if end.endswith(b"\n") else "")


def stands(leaves):
    """Returns how many of the pieces are open and closed, and the share of the space that is closed."""
    closed = [piece for piece in leaves if piece.has("proof")]
    return len(leaves) - len(closed), len(closed), sum(2.0 ** -piece.depth() for piece in closed)


def judged(spread, piece):
    """Says what the whole file's judge says of a piece's pattern."""
    said = spread.lls("judge", f"{spread.folder}/search.lls", piece.path("pattern"), *without_making(spread.options))
    if said.stdout != "meets\n":
        raise Stop(f"the pattern of {piece.name} doesn't fit the whole file: {said.stdout.strip() or said.stderr.strip()}")
    print(f"pattern: {piece.path('pattern')}, judged by `lls judge` against the whole file")
    return PATTERN


def run(words):
    spread, began = Spread(words.folder), time.time()
    if shutil.which("parallel") is None:
        raise Stop("GNU parallel isn't there; it is Debian's package `parallel`")
    while True:
        taken = [take_ended(spread, piece) for piece in list(spread.leaves()) if piece.has("ended")]
        if taken and not any(taken):
            raise Stop("no answer of this round can be taken: `start` lays out a search for this program")
        leaves = list(spread.leaves())
        found = next_of(leaves, "pattern")
        if found:
            return judged(spread, found)
        print(f"{standing(leaves)}, {time.time() - began:.0f} s", flush=True)
        pieces = [piece for piece in leaves if not piece.has("proof")]
        if not pieces:
            return ABSENT
        search_round(spread, pieces, words.more)
        if not any(piece.has("ended") for piece in pieces):
            raise Stop(f"no piece ended in this round; {words.folder}/joblog says how the jobs did")


# One piece at a time.


class Lock:
    """A file that says that a piece is being searched. `is_held` says whether it was made by this process."""

    def __init__(self, piece, age):
        self.path, self.age = piece.path("lock"), age

    def make(self):
        try:
            with os.fdopen(os.open(self.path, os.O_CREAT | os.O_EXCL | os.O_WRONLY), "w") as file:
                file.write(f"{socket.gethostname()} {time.time():.0f}\n")
            return True
        except FileExistsError:
            return False

    def __enter__(self):
        self.is_held = self.make()
        try:
            if not self.is_held and time.time() - os.stat(self.path).st_mtime > self.age:
                # Of all that find it too old, one can rename it.
                old = f"{self.path}.{whose()}"
                os.rename(self.path, old)
                os.remove(old)
                self.is_held = self.make()
        except FileNotFoundError:
            pass
        return self

    def __exit__(self, *_):
        if self.is_held:
            os.remove(self.path)


def whose():
    """A name that no other process on any machine has."""
    return f"{socket.gethostname()}.{os.getpid()}"


def search_one(spread, piece):
    """Searches a piece and takes what comes of it."""
    began = time.time()
    with Search(piece) as search:
        status = search.run(piece.budget())
        with open(search.out if status == PATTERN else search.part, encoding="ascii") as file:
            head = f"{status} {sum_of(made_of(spread.program))} {socket.gethostname()} {time.time() - began:.1f}"
            write_whole(piece.path("ended"), f"{head}\n{file.read()}")
    take_ended(spread, piece)


def next_piece(words):
    spread = Spread(words.folder)
    leaves = list(spread.leaves())
    found = next_of(leaves, "pattern")
    if found:
        return judged(spread, found)
    for piece in leaves:
        if piece.has("proof"):
            continue
        with Lock(piece, words.age) as lock:
            # Another process may have closed or split it meanwhile.
            if lock.is_held and not piece.has("proof") and not piece.has("split"):
                # One that was ended may have left its answer.
                if take_ended(spread, piece) is None:
                    search_one(spread, piece)
                return judged(spread, piece) if piece.has("pattern") else 0
    return ABSENT if all(piece.has("proof") for piece in spread.leaves()) else UNDECIDED


def next_of(leaves, ending_):
    """Returns the first piece with a file of this kind, or None."""
    return next((piece for piece in leaves if piece.has(ending_)), None)


# One proof.


class Ids(dict):
    """The ids that the clauses of a piece's search have in the joined proof, as words: those of the whole's formula keep theirs, and those that fix its cells have none, and an
    empty word."""

    def __init__(self, piece, handed):
        super().__init__()
        self.count, self.path = piece.spread.clauses, piece.path("proof")
        self.update((b"%d" % number, b"") for number in range(self.count + 1, self.count + piece.depth() + 1))
        self.update(zip((b"%d" % number for number in itertools.count(self.count + piece.depth() + 1)), handed))

    def __missing__(self, word):
        if int(word) > self.count:
            raise Stop(f"{self.path}: clause {int(word)} isn't there")
        self[word] = word
        return word


class Steps:
    """Steps of the proof that is written, behind the additions up to an id: its clauses have ids of their own, one after the other. All is words as bytes, since few of them
    change."""

    def __init__(self, file, last):
        self.file, self.last = file, last

    def add(self, clause, hints):
        self.last += 1
        added = b"%d" % self.last
        self.file.write(b" ".join([added, clause, b"0", *hints, b"0\n"] if clause else [added, b"0", *hints, b"0\n"]))
        return added

    def delete(self, ids):
        if ids:
            self.file.write(b" ".join([b"%d d" % self.last, *ids, b"0\n"]))

    def search(self, piece, path, handed, taken):
        """Writes the steps of a search of a piece that had clauses of these ids from the pieces above it, and these of its own, each an id and its literals. Returns those
        that its next search takes, none where this one closes it."""
        # They stand behind each clause that was learnt: a search learns none that has a literal of what is fixed, and one that stood twice would do no harm.
        outside = [b"%d" % lit for lit in negations(piece)]
        behind = b" ".join([*outside, b"0"])
        ids, live = Ids(piece, [*handed, *(added for added, _ in taken)]), {}
        live.update(zip(own_ids(piece, len(handed)), (lits for _, lits in taken)))
        # There are millions of lines, so what is done for each calls nothing that Python has no own words for.
        id_of, write = ids.__getitem__, self.file.write
        with open(path, "rb") as file:
            for line in file:
                added, _, rest = line.partition(b" ")
                if rest.startswith(b"d "):
                    gone = [word for word in rest.split()[1:-1] if word in live]
                    self.delete([live.pop(word) and ids.pop(word) for word in gone])
                    continue
                if rest.startswith(b"0 "):
                    self.add(b" ".join(outside), filter(None, map(id_of, rest.split()[1:-1])))
                    self.delete([ids[word] for word in live])
                    return []
                lits, _, hints = rest.partition(b" 0 ")
                self.last += 1
                ids[added] = b"%d" % self.last
                live[added] = lits
                write(b" ".join([ids[added], lits, behind, *filter(None, map(id_of, hints.split()[:-1])), b"0\n"]))
        kept = dict.fromkeys(shortest(live, MOST_CARRIED))
        self.delete([ids[word] for word in live if word not in kept])
        return [(ids[word], live[word]) for word in kept]

    def searches(self, piece, handed):
        """Writes the steps of all searches of a piece, and returns the ids of what they leave for its parts."""
        taken = []
        for path in piece.searches():
            taken = self.search(piece, path, handed, taken)
        return [added for added, _ in taken]


class Nowhere:
    """A file for steps of which only the ids are wanted."""

    def write(self, text):
        pass


class Joined(Steps):
    """The joined proof. Several processes write the steps of its pieces at once, each into a file of its own, which is put behind the others then."""

    def __init__(self, spread, file, pool, room):
        super().__init__(file, spread.clauses)
        leaves = list(spread.leaves())
        self.leaves, self.room, self.tasks, self.left = {leaf.name for leaf in leaves}, room, [], {}
        searches = [path for leaf in leaves for path in leaf.searches()]
        self.additions = dict(zip(searches, pool.map(additions_of, searches)))
        self.plan(Piece(spread, "r"), self.last, [])
        self.written = pool.imap(write_steps, self.tasks)

    def plan(self, piece, last, handed):
        """Lists the pieces that were searched, each with the last id before its steps and the ids that it is handed, and returns the last id of the piece."""
        if searches := piece.searches():
            self.tasks.append((piece, last, handed, f"{self.room}/{piece.name}"))
        if piece.name in self.leaves:
            return last + sum(self.additions[path] for path in searches)
        counted = Steps(Nowhere(), last)
        self.left[piece.name] = counted.searches(piece, handed)
        last = counted.last
        for part in piece.parts():
            last = self.plan(part, last, handed + self.left[piece.name])
        return last + 1

    def piece(self, piece):
        """Writes what closes a piece, and returns the id of the clause that says so: not all of its cells are fixed that way."""
        if piece.searches():
            self.take()
        if piece.name in self.leaves:
            return b"%d" % self.last
        closing = [self.piece(part) for part in piece.parts()]
        last = self.add(b" ".join(b"%d" % lit for lit in negations(piece)), closing)
        self.delete(closing + self.left[piece.name])
        return last

    def take(self):
        """Puts the next steps behind the others."""
        name, self.last = next(self.written)
        with open(name, "rb") as file:
            shutil.copyfileobj(file, self.file, 1 << 20)
        os.remove(name)


def additions_of(path):
    """Returns how many additions a proof has."""
    count = 0
    with open(path, "rb") as file:
        while text := file.read(1 << 22) + file.readline():
            count += text.count(b"\n") - text.count(b" d ")
    return count


def write_steps(task):
    """Writes the steps of a piece behind an id into a file, and returns its name and the last id then."""
    piece, last, handed, name = task
    with open(name, "wb") as file:
        steps = Steps(file, last)
        if steps.searches(piece, handed) and piece.has("proof"):
            raise Stop(f"{piece.path('proof')} adds no empty clause")
    return name, steps.last


def negations(piece):
    """Returns the literals that say that not all of a piece's cells are fixed as they are."""
    width = len(piece.spread.generations[0][0])
    return [(1 + x + width * y) * (1 if digit == "0" else -1) for (y, x), digit in piece.fixed().items()]


def trim_joined(spread, proof):
    """Puts what the joined proof's empty clause rests on in its place."""
    formula = f"{proof}.cnf"
    try:
        with open(formula, "wb") as file:
            subprocess.run([spread.program, "cnf", f"{spread.folder}/search.lls", *spread.options], stdout=file, stderr=subprocess.DEVNULL, check=False)
        said = spread.lls("trim", formula, proof, f"{proof}.new")
        print(f"lls trim says: {said.stdout.strip() or said.stderr.strip()}")
        if said.returncode == 0:
            os.replace(f"{proof}.new", proof)
    finally:
        os.remove(formula)


def join_to(spread, name):
    """Writes the joined proof to a file."""
    rooms = tempfile.TemporaryDirectory(prefix="joining-", dir=spread.folder)
    with open(name, "wb") as file, rooms as room, multiprocessing.Pool(len(os.sched_getaffinity(0))) as pool:
        Joined(spread, file, pool, room).piece(Piece(spread, "r"))


def join(words):
    spread = Spread(words.folder)
    count = stands(list(spread.leaves()))[0]
    if count:
        raise Stop(f"{count} pieces are open; `run` goes on with them")
    join_to(spread, f"{words.proof}.new")
    os.replace(f"{words.proof}.new", words.proof)
    if words.trimmed:
        trim_joined(spread, words.proof)
    said = spread.lls("check", f"{spread.folder}/search.lls", words.proof, *spread.options)
    print(f"lls check says: {said.stdout.strip() or said.stderr.strip()}")
    return 0 if said.stdout == "accepted\n" else 1


# How it stands.


def standing(leaves):
    """Returns how many pieces are open and closed, the share of the space that is closed, and how long the rest may take."""
    count, closed, share = stands(leaves)
    spent = sum(piece.took()[1] for piece in leaves)
    left = f", {clock(spent * (1 - share) / share)} of one processor may be left" if 0 < share < 1 and spent else ""
    return f"{count} open, {closed} closed, {100 * share:.4g} % of the space closed{left}"


def show_round(spread, pieces, process):
    """Waits for a process, and shows on a terminal, in place, how many pieces ended meanwhile and which one runs longest."""
    began = time.time()
    while sys.stderr.isatty():
        try:
            process.wait(1)
            print("\r\x1b[K", end="", file=sys.stderr, flush=True)
            return
        except subprocess.TimeoutExpired:
            ended = sum(piece.has("ended") for piece in pieces)
            oldest = next((piece.name for piece in pieces if piece.has("runs")), "")
            print(f"\r\x1b[K{ended} of {len(pieces)} pieces of this round ended, {clock(time.time() - began)}; {oldest}", end="", file=sys.stderr, flush=True)
    process.wait()


def clock(seconds):
    """A time in words, as long as it is good for."""
    for unit, size in (("days", 86_400), ("hours", 3600), ("minutes", 60)):
        if seconds >= 2 * size:
            return f"{seconds / size:.1f} {unit}"
    return f"{seconds:.0f} seconds"


def state_of(piece):
    """Returns what a piece is, and where and how long it was searched, or is."""
    if piece.has("proof"):
        machine, seconds = piece.took()
        return f"closed by {machine} in {clock(seconds)}" if machine else "closed"
    if piece.has("pattern"):
        return "pattern"
    for running in ("runs", "lock"):
        try:
            with open(piece.path(running), encoding="ascii") as file:
                machine, began = file.read().split()
            return f"open, at {machine} for {clock(max(0, time.time() - float(began)))}"
        except (OSError, ValueError):
            pass
    return "open, in the other manner next" if piece.has("other") else "open"


def look(words):
    spread = Spread(words.folder)
    leaves = list(spread.leaves())
    print(standing(leaves))
    for piece in leaves:
        print(f"{'  ' * piece.depth()}{piece.name}: {state_of(piece)}, budget {piece.budget():,}")
    hardest = max((piece for piece in leaves if not piece.has("proof")), key=Piece.depth, default=None)
    if hardest:
        print(f"generation 0 of {hardest.name}:")
        print("\n".join(" ".join(row) for row in hardest.generations()[0]))
    return 0


def number(least):
    def read(word):
        value = int(word)
        if value < least:
            raise ValueError
        return value

    return read


def words_given():
    parser = argparse.ArgumentParser(prog="spread.py", usage=ending.usage_of(__doc__))
    kinds = parser.add_subparsers(dest="kind", required=True)
    for name, kind in {"start": start, "run": run, "next": next_piece, "join": join, "look": look}.items():
        words = kinds.add_parser(name)
        if kind is start:
            words.add_argument("search")
        words.add_argument("folder")
        if kind is join:
            words.add_argument("proof")
            words.add_argument("--trimmed", action="store_true")
        if kind is start:
            for option in OPTIONS:
                words.add_argument(f"--{option}")
            words.add_argument("--bare", action="store_true")
            words.add_argument("--budget", type=number(1), default=FIRST_BUDGET)
            words.add_argument("--cells", type=number(0))
            words.add_argument("--lls", default=f"{os.path.dirname(os.path.abspath(__file__))}/../lls")
        if kind is next_piece:
            words.add_argument("--age", type=number(0), default=MOST_AGE)
        words.set_defaults(do=kind)
    given = sys.argv[1:]
    end = given.index("--") if "--" in given else len(given)
    parsed = parser.parse_args(given[:end])
    parsed.more = given[end + 1 :]
    return parsed


def main():
    words = words_given()
    try:
        return words.do(words)
    except Stop as why:
        return f"spread.py: {why}"


if __name__ == "__main__":
    ending.run(main, __doc__)
