#!/usr/bin/env python3
"""The catalogue of proved sentences: says them, and makes and checks the proof of each anew.

    catalogue.py list [--page]
    catalogue.py show NAME
    catalogue.py check NAME .. | --all | --within SECONDS [--jobs N] [--lls PROGRAM] [-- options of GNU parallel]
    catalogue.py add NAME SEARCH SENTENCE BESIDES KNOWN [--words WORDS] [--lls PROGRAM]

An entry is a search file catalogue/NAME.lls, whose line `#!` has the options of its question, and a line of catalogue/entries.tsv. Its sentence may be
quoted with what stands behind it: what the sentence leaves out. The answer is `none` (an absence, whose proof `check` makes anew by `search` with the words of
the entry, or in pieces by spread.py where these begin with `spread`, and has `lls check` accept) or `pattern` (catalogue/NAME.rle, which `lls judge` looks at). A search is a function of its file and its words, so
the proof has the same bytes each time, and their SHA-256 stands in the entry.

`list` prints a table, with `--page` as docs/catalogue.md has it. `show` prints an entry: its sentence, its question or pattern as a picture, and
the commands to check it by hand. `check` prints a line for each entry and keeps nothing; it ends with 1 where one isn't as it is said. `--within` takes the entries
that are said to take so many seconds in all at most, the quick ones first. `--jobs` has N of them checked at once on this machine; behind `--` GNU parallel does it, for
example over other machines that have the repository under the same name (`-- --sshloginfile HOSTS`).

`add` searches a new question, and writes its line and its files; the program has to be one that was proved.
"""
import argparse
import concurrent.futures
import hashlib
import os
import re
import shlex
import shutil
import subprocess
import sys
import tempfile
import time

import ending
from with_solver import LLS, without_making

TOP = os.path.dirname(os.path.dirname(os.path.abspath(__file__)))
FIELDS = ("name", "sentence", "besides", "answer", "words", "additions", "bytes", "seconds", "sha256", "known")
PATTERN, ABSENT = 10, 20


class Stop(Exception):
    """Why an entry isn't as it is said, or can't be looked at."""


class Entry:
    """A line of the table, with its files."""

    def __init__(self, folder, line):
        values = line.split("\t")
        if len(values) != len(FIELDS):
            raise Stop(f"a line of entries.tsv has {len(values)} fields, and {len(FIELDS)} belong there: {line[:60]}")
        for field, value in zip(FIELDS, values):
            setattr(self, field, value)
        if not re.fullmatch(r"[a-z0-9][a-z0-9-]*", self.name):
            raise Stop(f"'{self.name}' is no name of an entry: small letters, digits and dashes")
        self.search, self.pattern = f"{folder}/{self.name}.lls", f"{folder}/{self.name}.rle"

    def line(self):
        return "\t".join(getattr(self, field) for field in FIELDS)

    def options(self):
        """Returns the options that the search file's first line has."""
        with open(self.search, encoding="ascii") as file:
            first = file.readline()
        return shlex.split(first[2:]) if first.startswith("#!") else []

    def by_hand(self):
        """Returns the commands that check the entry."""
        search = os.path.relpath(self.search, TOP)
        if self.answer == "pattern":
            return [f"./lls judge {search} {os.path.relpath(self.pattern, TOP)} --as rle"]
        if self.is_spread():
            start = shlex.join(["tools/spread.py", "start", search, "pieces", *self.options(), *shlex.split(self.words)[1:]])
            making = [start, "tools/spread.py run pieces", f"tools/spread.py join pieces {self.name}.proof"]
        else:
            making = [f"./lls search {search} {self.name}.proof{' ' * bool(self.words)}{self.words}"]
        return [*making, f"./lls check {search} {self.name}.proof"]

    def is_spread(self):
        return self.words.split()[:1] == ["spread"]

    def prove(self, program, proof, room):
        """Makes the proof of an absence."""
        if not self.is_spread():
            answer_is(ABSENT, "no pattern", program, "search", self.search, proof, *self.options(), *shlex.split(self.words))
            return
        pieces, tool = f"{room}/pieces", f"{TOP}/tools/spread.py"
        ends_with(0, tool, "start", self.search, pieces, *self.options(), *shlex.split(self.words)[1:], "--lls", program)
        if shutil.which("parallel"):
            ends_with(ABSENT, tool, "run", pieces)
        else:
            while ended(tool, "next", pieces).returncode == 0:
                pass
            ends_with(ABSENT, tool, "next", pieces)
        ends_with(0, tool, "join", pieces, proof)

    def checked(self, program):
        """Returns what there is to say of the entry where it is as it is said, or stops."""
        missing = [it for it in [self.search] + [self.pattern] * (self.answer == "pattern") if not os.path.isfile(it)]
        if missing:
            raise Stop(f"{os.path.relpath(missing[0], TOP)} is missing")
        begun = time.monotonic()
        if self.answer == "pattern":
            same_sum(self, self.pattern)
            answer_is(0, "meets", program, "judge", self.search, self.pattern, *without_making(self.options()), "--as", "rle")
            return f"pattern, meets, {time.monotonic() - begun:.2f} s"
        if self.answer != "none":
            raise Stop(f"'{self.answer}' is no answer: none or pattern")
        with tempfile.TemporaryDirectory(prefix="catalogue-") as room:
            proof = f"{room}/proof"
            self.prove(program, proof, room)
            answer_is(0, "accepted", program, "check", self.search, proof, *self.options())
            same_sum(self, proof)
        return f"none, accepted, {time.monotonic() - begun:.2f} s"


def ended(*words):
    return subprocess.run(words, stdin=subprocess.DEVNULL, capture_output=True, check=False)


def ends_with(status, *words):
    """Stops where a script ends with another status."""
    done = ended(*words)
    if done.returncode != status:
        raise Stop(f"{os.path.basename(words[0])} {words[1]} ends with {done.returncode}: {done.stderr.decode('utf-8', 'replace').strip()[-200:]}")


def answer_is(status, text, *words):
    """Stops where a command ends otherwise."""
    done = ended(*words)
    said = (done.stdout.split(b"\n")[0] or done.stderr.strip()).decode("utf-8", "replace")
    if (done.returncode, said) != (status, text):
        raise Stop(f"{words[1]} ends with {done.returncode} and '{said}', and not with {status} and '{text}'")


def sum_of(name):
    with open(name, "rb") as file:
        return hashlib.file_digest(file, "sha256").hexdigest()


def same_sum(entry, name):
    if sum_of(name) != entry.sha256:
        raise Stop("the answer holds, but its bytes have another SHA-256 than the entry says")


def entries_in(folder):
    with open(f"{folder}/entries.tsv", encoding="utf-8") as file:
        head, *lines = file.read().splitlines()
    if head.split("\t") != list(FIELDS):
        raise Stop("the first line of entries.tsv doesn't name its fields")
    entries = [Entry(folder, line) for line in lines]
    names = [it.name for it in entries]
    twice = [it for it in names if names.count(it) > 1]
    if twice:
        raise Stop(f"{twice[0]} stands twice in entries.tsv")
    return entries


def named(entries, names):
    """Returns the entries of these names."""
    by_name = {it.name: it for it in entries}
    unknown = [it for it in names if it not in by_name]
    if unknown:
        raise Stop(f"there is no entry {unknown[0]}")
    return [by_name[it] for it in names]


def within(entries, seconds):
    """Returns the quick entries, as many as take so long in all."""
    taken, left = [], seconds
    for entry in sorted(entries, key=lambda it: float(it.seconds)):
        left -= float(entry.seconds)
        if left < 0:
            break
        taken.append(entry)
    return taken


def look_at(entry, program):
    """Prints a line on an entry, and returns whether it is as it is said."""
    try:
        print(f"{entry.name}: {entry.checked(program)}", flush=True)
        return True
    except (Stop, OSError) as fault:
        print(f"{entry.name}: WRONG: {fault}", flush=True)
        return False


def check(values, folder):
    entries = entries_in(folder)
    if values.within is not None:
        entries = within(entries, values.within)
    elif not values.all:
        entries = named(entries, values.names)
    if not entries:
        raise Stop("no entry is to be checked")
    if values.parallel is not None:
        if not shutil.which("parallel"):
            raise Stop("GNU parallel isn't there (apt install parallel)")
        own = [os.path.abspath(__file__), "check", "--lls", values.lls]
        names = "".join(f"{it.name}\n" for it in entries)
        return min(1, subprocess.run(["parallel", *values.parallel, *map(shlex.quote, own), "{}"], input=names, text=True, check=False).returncode)
    with concurrent.futures.ThreadPoolExecutor(values.jobs) as pool:
        right = list(pool.map(lambda it: look_at(it, values.lls), entries))
    print(f"{sum(right)} of {len(right)} entries are as they are said")
    return 0 if all(right) else 1


def page_of(entries):
    """Returns the page of all entries, as docs/catalogue.md has it."""
    lines = [
        "# The catalogue",
        "",
        "Sentences that anyone can check again: `tools/catalogue.py check NAME` makes the proof anew and has the program check it, `tools/catalogue.py show NAME` says how to do that",
        "by hand, and how the question is posed. Each sentence may be quoted with what stands behind it: what it leaves out. From the bytes of the search file and of the proof to the answer",
        "leads a theorem, the contract of `run`; that the file asks what the sentence says is for its reader to see. Additions are those of the proof; the seconds are those of one processor",
        "of a virtual machine (Intel Xeon at 2.5 GHz) for search and check, beside other work. This page is printed by `tools/catalogue.py list --page`.",
        "",
        "| Entry | Sentence | Left out | Additions, bytes, seconds | Known before |",
        "|---|---|---|---|---|",
    ]
    for it in entries:
        size = f"{int(it.additions):,}, {int(it.bytes):,}, {it.seconds}" if it.answer == "none" else f"a pattern, {it.seconds}"
        lines.append(f"| `{it.name}` | {it.sentence} | {it.besides} | {size} | {it.known} |")
    return "\n".join(lines)


def table_of(entries):
    width = max(len(it.name) for it in entries)
    return "\n".join(f"{it.name:{width}}  {it.answer:7}  {float(it.seconds):8.2f} s  {it.sentence}" for it in entries)


def show(entry):
    print(entry.sentence)
    print(f"Left out: {entry.besides}.")
    print(f"Known before: {entry.known}.")
    print(f"Question: {os.path.relpath(entry.search, TOP)} {' '.join(entry.options())}")
    picture = entry.pattern if entry.answer == "pattern" else entry.search
    sys.stdout.flush()
    subprocess.run([f"{TOP}/tools/show.py", picture], check=False)
    print("To check it:")
    for line in entry.by_hand():
        print(f"    {line}")


def searched(entry, program, proof):
    """Searches an entry's question, keeps a pattern, and returns the answer."""
    done = ended(program, "search", entry.search, proof, *entry.options(), *shlex.split(entry.words), "--as", "rle")
    if done.returncode not in (PATTERN, ABSENT):
        raise Stop(f"the search ends with {done.returncode}: {(done.stdout or done.stderr).decode('utf-8', 'replace').strip()[:200]}")
    if done.returncode == ABSENT:
        return "none"
    with open(entry.pattern, "wb") as file:
        # The first generation: the others follow from it.
        file.write(done.stdout[: done.stdout.index(b"!") + 1] + b"\n")
    return "pattern"


def measure(entry, program):
    """Answers an entry's question, checks the answer, and fills in what the entry says of it."""
    begun = os.times()
    with tempfile.TemporaryDirectory(prefix="catalogue-") as room:
        proof = f"{room}/proof"
        entry.answer = "none" if entry.is_spread() else searched(entry, program, proof)
        if entry.is_spread():
            entry.prove(program, proof, room)
            shutil.rmtree(f"{room}/pieces")
        shown = proof if entry.answer == "none" else entry.pattern
        entry.bytes, entry.sha256 = str(os.path.getsize(shown)), sum_of(shown)
        if entry.answer == "none":
            with open(proof, "rb") as file:
                entry.additions = str(sum(line.split()[1:2] != [b"d"] for line in file))
    entry.checked(program)
    now = os.times()
    entry.seconds = f"{now.children_user + now.children_system - begun.children_user - begun.children_system:.2f}"


def add(values, folder):
    """Searches a new question, and writes its line and its files."""
    entry = Entry(folder, "\t".join([values.name, values.sentence, values.besides, "", values.words, "-", "-", "-", "-", values.known]))
    if any(it.name == entry.name for it in entries_in(folder)):
        raise Stop(f"there is an entry {entry.name}")
    made = [entry.pattern]
    if os.path.abspath(values.search) != os.path.abspath(entry.search):
        made.append(shutil.copyfile(values.search, entry.search))
    try:
        measure(entry, values.lls)
    except (Stop, OSError):
        for name in filter(os.path.exists, made):
            os.remove(name)
        raise
    with open(f"{folder}/entries.tsv", "a", encoding="utf-8") as file:
        file.write(entry.line() + "\n")
    print(f"{entry.name}: {entry.answer}, {entry.seconds} s")


def words():
    given, parallel = sys.argv[1:], None
    if "--" in given:
        at = given.index("--")
        given, parallel = given[:at], given[at + 1 :]
    parser = argparse.ArgumentParser(description=__doc__, formatter_class=argparse.RawDescriptionHelpFormatter)
    parser.add_argument("--folder", default=f"{TOP}/catalogue", help=argparse.SUPPRESS)
    calls = parser.add_subparsers(dest="call", required=True, metavar="list|show|check|add")
    calls.add_parser("list").add_argument("--page", action="store_true")
    calls.add_parser("show").add_argument("name", metavar="NAME")
    checks = calls.add_parser("check")
    which = checks.add_mutually_exclusive_group(required=True)
    which.add_argument("names", metavar="NAME", nargs="*", default=[])
    which.add_argument("--all", action="store_true")
    which.add_argument("--within", metavar="SECONDS", type=float)
    checks.add_argument("--jobs", metavar="N", type=int, default=1)
    adds = calls.add_parser("add")
    for name in ("name", "search", "sentence", "besides", "known"):
        adds.add_argument(name, metavar=name.upper())
    adds.add_argument("--words", metavar="WORDS", default="")
    for call in (checks, adds):
        call.add_argument("--lls", metavar="PROGRAM", default=LLS)
    values = parser.parse_args(given)
    values.parallel = parallel
    return values


def main():
    values = words()
    try:
        if values.call == "check":
            return check(values, values.folder)
        if values.call == "add":
            return add(values, values.folder)
        entries = entries_in(values.folder)
        if values.call == "show":
            return show(named(entries, [values.name])[0])
        print(page_of(entries) if values.page else table_of(entries))
    except Stop as fault:
        print(f"catalogue.py: {fault}", file=sys.stderr)
        return 2
    return 0


if __name__ == "__main__":
    ending.run(main, __doc__)
