#!/usr/bin/env python3
"""Searches in rounds, each of which goes on from what was learnt before it, until there is an answer or the time is over.

    rounds.py [--lls PROGRAM] [--seconds N] [--from LOG] [--round N] search|sat|least|most SEARCH PROOF [WORD ..]

The words are those of the command (`sat` has a formula in SEARCH), but for `--crew` and `--turns`. The first round learns 10,000 clauses (N of --round) and each further one twice as
many as the one before. Behind each round PROOF has all that was learnt so far: it is written beside, under a name that begins with a dot, and renamed. So whenever this is ended, by Ctrl-C,
by --seconds or by a machine that goes away, what is lost is one round at most. `--from PROOF` goes on from there, of `search` or `sat`, and LOG and PROOF may be one name; `lls check`, or
`lls lrat`, looks at each step of LOG first. With `--budget N` no more than N clauses are learnt in all rounds together, and with neither that nor --seconds it ends with an answer alone.
`least` and `most` search so for each bound, and PROOF has the log of the last one. Where their time is over, or Ctrl-C ends them, they print the last pattern that they found.

Prints what the command prints: a pattern (status 10), which `lls judge` judged, `no pattern` (20), or where `least K` is said (10) that there is none with fewer, where PROOF is a proof that
`lls check` accepted, or `undecided` or `at most K` (30), where PROOF is a log. It isn't said to be spent, as the log of one search is: a round is a search for itself, and what is let
go between two rounds, all but the shortest 4,000 clauses, may be learnt again. Nothing here has to be trusted. A refusal of the program is printed with its status.
"""
import os
import re
import shutil
import signal
import subprocess
import sys
import time

import ending
from pattern import BadInput, pattern_of
from spread import manners_of, whose
from with_solver import LLS, NoAnswer, run, without_making

PATTERN, ABSENT, UNDECIDED, INTERRUPTED = 10, 20, 30, 130
FIRST_BUDGET, MOST_BUDGET = 10_000, 10_000_000
# So many clauses a round takes from those before it, the shortest ones.
MOST_CARRIED = 4_000
COMMANDS = ("search", "sat", "least", "most")
# Words on the search that are no words on the question.
OF_SEARCH = ("budget", "keep", "manner", "first")
# A crew has one log, which no other search goes on from.
OF_CREW = ("crew", "turns")
HEADER = re.compile(rb"^p[ \t]+cnf[ \t]+(\d+)[ \t]+(\d+)[ \t]*\r?$", re.MULTILINE)


class Refused(Exception):
    """The status of a question that the program refused, in words of its own."""


def pairs_of(words):
    """Returns options as pairs of name and value, whether they are one word or two."""
    left, pairs = iter(words), []
    for word in left:
        name, mark, value = word.partition("=")
        pairs.append((name.removeprefix("--"), value if mark else next(left, "")))
    return pairs


class Question:
    """What is asked: a search file and its options, perhaps with a bound more, or a formula; and how it is searched."""

    def __init__(self, program, command, search, words, bound=None):
        self.program, self.search, self.is_formula = program, search, command == "sat"
        pairs = pairs_of(words)
        if bound:
            pairs = [("live", ",".join([bound, *(value for name, value in pairs if name == "live")])), *(pair for pair in pairs if pair[0] != "live")]
        self.options = [f"--{name}={value}" for name, value in pairs if name not in OF_SEARCH]
        self.how = [f"--{name}={value}" for name, value in pairs if name in OF_SEARCH and name != "budget"]
        self.budget = next((ending.number(value, "--budget") for name, value in pairs if name == "budget"), None)
        if not self.is_formula and not any(name == "manner" for name, _ in pairs):
            self.how.append(f"--manner={manners_of(self.options)[0]}")

    def formula(self):
        """Returns the formula as the program's bytes."""
        if self.is_formula:
            with open(self.search, "rb") as file:
                return file.read()
        made = subprocess.run([self.program, "cnf", self.search, *self.options], stdout=subprocess.PIPE, check=False)
        if made.returncode:
            raise Refused(made.returncode)
        return made.stdout

    def check(self, proof):
        """Returns what the checker says of a proof, with its status."""
        return run(self.program, *(["lrat", self.search, proof] if self.is_formula else ["check", self.search, proof, *self.options]))

    def check_end(self, proof):
        """Ends where the checker doesn't take the proof of an absence."""
        status, said = self.check(proof)
        if status:
            raise NoAnswer(f"`lls check` doesn't take {proof}: {said.strip() or f'status {status}'}")

    def rows_of(self, model, room):
        """Returns the rows of a model's pattern, once it is judged."""
        with open(self.search, encoding="utf-8") as file:
            rows = "\n".join(pattern_of(file.read(), model)) + "\n"
        write(f"{room}/pattern", rows)
        asked = [word for word in without_making(self.options) if not word.startswith("--as=")]
        status, said = run(self.program, "judge", self.search, f"{room}/pattern", *asked)
        if status:
            raise NoAnswer(f"`lls judge` doesn't take the pattern: {said.strip() or f'status {status}'}")
        return rows

    def printed(self, rows, room):
        """Returns a pattern as the program prints it: it is a search file that asks for itself."""
        if "--as=rle" not in self.options:
            return rows
        write(f"{room}/pattern", rows)
        return run(self.program, "search", f"{room}/pattern", f"{room}/none", *(word for word in self.options if word.startswith(("--as=", "--rule=", "--edge="))))[1]


def write(name, text):
    with open(name, "w", encoding="ascii") as file:
        file.write(text)


class Names(dict):
    """The ids that the clauses of a round have in PROOF, as words: those of the formula keep theirs."""

    def __missing__(self, word):
        self[word] = word
        return word


class Log:
    """What was learnt so far: a file, the last id in it, how many additions it has, and the literals of those that are live, by id."""

    def __init__(self, name, clauses):
        self.name, self.clauses, self.last, self.additions, self.live = name, clauses, clauses, 0, {}

    def read(self):
        """Reads what stands in the file."""
        with open(self.name, "rb") as file:
            for words in filter(None, map(bytes.split, file)):
                if words[1] == b"d":
                    for word in words[2:-1]:
                        self.live.pop(word, None)
                else:
                    self.last, self.additions = int(words[0]), self.additions + 1
                    self.live[words[0]] = b" ".join(words[1 : words.index(b"0", 1)])

    def carried(self):
        """Lets go of all clauses but the shortest ones, and returns the ids of those that stay."""
        kept = sorted(self.live, key=lambda word: self.live[word].count(b" "))
        gone = kept[MOST_CARRIED:]
        if gone:
            with open(self.name, "ab") as file:
                self.delete(file, gone)
        return kept[:MOST_CARRIED]

    def delete(self, file, gone):
        file.write(b" ".join([b"%d d" % self.last, *gone, b"0\n"]))
        for word in gone:
            del self.live[word]

    def take(self, part, carried):
        """Puts the steps of a round behind the others."""
        names = Names((b"%d" % (self.clauses + place), word) for place, word in enumerate(carried, 1))
        with open(part, "rb") as steps, open(self.name, "ab") as file:
            for words in map(bytes.split, steps):
                if words[1] == b"d":
                    self.delete(file, [names.pop(word) for word in words[2:-1]])
                    continue
                end = words.index(b"0", 1)
                self.last, self.additions = self.last + 1, self.additions + 1
                added = b"%d" % self.last
                names[words[0]], self.live[added] = added, b" ".join(words[1:end])
                file.write(b" ".join([added, *words[1 : end + 1], *map(names.__getitem__, words[end + 1 : -1]), b"0\n"]))


def extended(formula, clauses):
    """Returns a formula with clauses behind its own."""
    head = HEADER.search(formula)
    return b"%s%d%s\n%s" % (formula[: head.start(2)], int(head[2]) + len(clauses), formula[head.end(2) :].rstrip(), b"".join(b"%s 0\n" % it for it in clauses))


def clause_count(formula):
    head = HEADER.search(formula)
    if head is None:
        raise NoAnswer("no line 'p cnf': this is no formula")
    return int(head[2])


class Rounds:
    """The search for an answer to a question in rounds. PROOF is put in its place behind each of them."""

    def __init__(self, question, proof, room, end, budget):
        self.question, self.proof, self.room, self.end, self.budget = question, proof, room, end, budget
        self.began, self.rate = time.monotonic(), None
        self.formula = question.formula()
        self.log = Log(f"{room}/log", clause_count(self.formula))
        with open(self.log.name, "wb"):
            pass

    def go_on_from(self, log):
        """Reads the log that the search goes on from, and returns whether it has the answer already."""
        shutil.copyfile(log, self.log.name)
        status, said = self.question.check(self.log.name)
        if status == 0:
            self.put()
        elif said != "refused: NoEmpty\n":
            raise NoAnswer(f"{log} is no log of this question: {said.strip() or f'status {status}'}")
        self.log.read()
        return status == 0

    def left(self):
        """Returns how many seconds are left, or None where there is no end."""
        return None if self.end is None else self.end - time.monotonic()

    def put(self):
        """Puts all that was learnt where PROOF is."""
        beside = f"{self.room}/proof"
        shutil.copyfile(self.log.name, beside)
        os.replace(beside, self.proof)

    def next_budget(self):
        """Returns how many clauses the next round may learn: not many more than there is time for."""
        budget, left = min(self.budget, MOST_BUDGET), self.left()
        if self.question.budget is not None:
            budget = min(budget, self.question.budget - self.log.additions)
        return budget if left is None or self.rate is None else min(budget, int(self.rate * left))

    def round(self, budget):
        """Searches for once. Returns the status and what was printed, or no status where the time was over."""
        part, formula = f"{self.room}/part", f"{self.room}/formula"
        carried = self.log.carried()
        with open(formula, "wb") as file:
            file.write(extended(self.formula, [self.log.live[word] for word in carried]))
        began = time.monotonic()
        line = [self.question.program, "sat", formula, part, f"--budget={budget}", *self.question.how]
        try:
            done = subprocess.run(line, stdin=subprocess.DEVNULL, stdout=subprocess.PIPE, timeout=self.left(), check=False)
        except subprocess.TimeoutExpired:
            return None, ""
        self.rate = budget / max(time.monotonic() - began, 0.001)
        if done.returncode in (ABSENT, UNDECIDED):
            self.log.take(part, carried)
            self.put()
            took = time.monotonic() - self.began
            say(f"{self.log.additions:,} clauses learnt, {len(self.log.live):,} of them live, {took:.1f} s")
        return done.returncode, done.stdout.decode("ascii", errors="replace")

    def run(self):
        """Searches round by round. Returns the status and what the last one printed."""
        while (budget := self.next_budget()) > 0:
            status, said = self.round(budget)
            if status is None:
                break
            if status != UNDECIDED:
                return status, said
            self.budget *= 2
        return UNDECIDED, ""


def say(text):
    print(f"rounds.py: {text}", file=sys.stderr, flush=True)


def find(rounds, log):
    """Has the rounds searched for anything, and gives the answer."""
    question = rounds.question
    status, said = (ABSENT, "") if log is not None and rounds.go_on_from(log) else rounds.run()
    if status == PATTERN:
        print(said if question.is_formula else question.printed(question.rows_of(said, rounds.room), rounds.room), end="")
    elif status == ABSENT:
        question.check_end(rounds.proof)
        print("s UNSATISFIABLE" if question.is_formula else "no pattern")
    elif status == UNDECIDED:
        print("s UNKNOWN" if question.is_formula else "undecided")
        say(f"--from {rounds.proof} goes on from the {rounds.log.additions:,} clauses that were learnt")
    return status


class Extreme:
    """The search for the fewest live cells of generation 0, or the most: the last pattern that was found, and the bound that asks for a better one."""

    def __init__(self, command):
        self.command, self.rows, self.count, self.bound = command, None, None, None

    def take(self, rows):
        """Takes a pattern, and returns whether one may be better."""
        first = rows.partition("\n\n")[0].split()
        self.rows, self.count = rows, first.count("1")
        self.bound = f"0:-{self.count - 1}" if self.command == "least" else f"0:{self.count + 1}-"
        return self.count != (0 if self.command == "least" else len(first))

    def give(self, question, room, is_shown):
        """Prints the last pattern behind what is known of it."""
        known = self.command if is_shown else {"least": "at most", "most": "at least"}[self.command]
        print(f"{known} {self.count}\n{question.printed(self.rows, room)}", end="")

    def look(self, rounds):
        """Looks for a pattern, and then for better ones. Returns the status."""
        question = rounds.question
        status, said = rounds.run()
        if status == PATTERN:
            if self.take(question.rows_of(said, rounds.room)):
                say(f"{self.count} live cells; looking for {'fewer' if self.command == 'least' else 'more'}")
                return None
            self.give(question, rounds.room, True)
            return PATTERN
        if status == ABSENT:
            question.check_end(rounds.proof)
        if self.rows is None:
            print("no pattern" if status == ABSENT else "undecided")
            return status
        self.give(question, rounds.room, status == ABSENT)
        return PATTERN if status == ABSENT else status


def find_extreme(command, rounds_of, room):
    """Finds the fewest live cells or the most, and says on Ctrl-C what was found so far."""
    extreme = Extreme(command)
    try:
        while True:
            rounds = rounds_of(extreme.bound)
            status = extreme.look(rounds)
            if status is not None:
                return status
    except KeyboardInterrupt:
        if extreme.rows is not None:
            extreme.give(rounds.question, room, False)
            say("stopped: this is the last pattern that was found, and nothing is shown of better ones")
        return INTERRUPTED


class Room:
    """A folder beside PROOF for what is under way, which is gone at the end. One that was left by a process of this machine that was killed is gone at the begin."""

    def __init__(self, proof):
        folder, last = os.path.split(os.path.abspath(proof))
        self.name = f"{folder}/.{last}.rounds.{whose()}"
        front = self.name.rpartition(".")[0] + "."
        for name in (f"{folder}/{it}" for it in os.listdir(folder)):
            if name.startswith(front) and not os.path.exists(f"/proc/{name.removeprefix(front)}"):
                shutil.rmtree(name)

    def __enter__(self):
        os.mkdir(self.name)
        return self.name

    def __exit__(self, *_):
        shutil.rmtree(self.name)


def stop(*_):
    raise KeyboardInterrupt


def main():
    program, seconds = ending.option("--lls", LLS), ending.option("--seconds")
    end = None if seconds is None else time.monotonic() + ending.number(seconds, "--seconds")
    log, budget = ending.option("--from"), ending.number(ending.option("--round", FIRST_BUDGET), "--round")
    command, search, proof, *words = ending.words(__doc__, "search|sat|least|most", "SEARCH", "PROOF", "WORD ..")
    if command not in COMMANDS or any(name in OF_CREW for name, _ in pairs_of(words)) or log is not None and command in COMMANDS[2:]:
        say(f"rounds are of {', '.join(COMMANDS)}, without --{' and --'.join(OF_CREW)}, and --from is of search and sat")
        return 2
    signal.signal(signal.SIGTERM, stop)
    try:
        with Room(proof) as room:

            def rounds_of(bound):
                return Rounds(Question(program, command, search, words, bound), proof, room, end, budget)

            return find_extreme(command, rounds_of, room) if command in COMMANDS[2:] else find(rounds_of(None), log)
    except Refused as refused:
        return refused.args[0]
    except (NoAnswer, BadInput) as fault:
        return f"rounds.py: {fault}"


if __name__ == "__main__":
    ending.run(main, __doc__)
