#!/usr/bin/env python3
"""Searches in several ways at once, each in a process of its own, and takes the first answer.

    race.py [--lls PROGRAM] [--runners N] COMMAND SEARCH PROOF [WORD ..]

COMMAND is `search`, `sat`, `least`, `most` or `open`, and the words are its own, without `--manner` and `--first`. There are N processes, as many as processors
and two at least where nothing is said: one by each manner, and with more of them each manner once more by what is drawn from 1 (`--first 1`), from 2, and so on.
Whichever process first finds a pattern or an absence has the answer, and the others are ended; where none does the answer is the first one's, which is restless. PROOF is what
the process that has the answer wrote: it is written beside, under a name that begins with a dot, and then renamed, so it is whole or as it was, also where the race is ended.
Prints what that process prints, and ends with its status.
"""
import os
import shutil
import signal
import subprocess
import sys
import tempfile

import ending
from with_solver import LLS

COMMANDS = ("search", "sat", "least", "most", "open")
MANNERS = ("restless", "steady")
# A runner's own words.
OWN = ("--manner", "--first")
# A pattern, and an absence.
DECIDED = (10, 20)


class Runner:
    """A process that searches in one way, with what it writes in a folder."""

    def __init__(self, program, way, words, room):
        command, search, _, *more = words
        self.proof = f"{room}/{''.join(way)}"
        self.files = [tempfile.TemporaryFile(dir=room) for _ in range(2)]
        line = [program, command, search, self.proof, *more, *way]
        self.process = subprocess.Popen(line, stdin=subprocess.DEVNULL, stdout=self.files[0], stderr=self.files[1])

    def stop(self):
        if self.process.poll() is None:
            self.process.terminate()
            self.process.wait()

    def give(self, proof):
        """Gives what the process wrote, and returns its status."""
        if os.path.exists(self.proof):
            os.replace(self.proof, proof)
        for file, stream in zip(self.files, (sys.stdout, sys.stderr)):
            file.seek(0)
            shutil.copyfileobj(file, stream.buffer)
            stream.flush()
        return self.process.returncode


def ways(many):
    """Returns the words by which so many runners differ."""
    for number in range(many):
        first = number // len(MANNERS)
        yield ["--manner", MANNERS[number % len(MANNERS)], *(["--first", str(first)] if first else [])]


def first_of(runners):
    """Waits for the first that decides, or for all, and returns the one that has the answer."""
    left = {it.process.pid: it for it in runners}
    while left:
        pid, status = os.wait()
        if pid in left:
            ended = left.pop(pid)
            ended.process.returncode = os.waitstatus_to_exitcode(status)
            if ended.process.returncode in DECIDED:
                return ended
    return runners[0]


def end(*_):
    raise KeyboardInterrupt


def race(program, many, words):
    """Has so many runners search, and gives what the first has that decides. Returns its status."""
    folder = os.path.dirname(os.path.abspath(words[2]))
    runners = []
    with tempfile.TemporaryDirectory(prefix=".race-", dir=folder) as room:
        try:
            for way in ways(many):
                runners.append(Runner(program, way, words, room))
            return first_of(runners).give(words[2])
        finally:
            for it in runners:
                it.stop()


def main():
    program = ending.option("--lls", LLS)
    processors = len(os.sched_getaffinity(0))
    many = ending.number(ending.option("--runners", max(processors, len(MANNERS))), "the number of runners")
    words = ending.words(__doc__, "COMMAND", "SEARCH", "PROOF", "WORD ..")
    if words[0] not in COMMANDS or any(it.split("=")[0] in OWN for it in words):
        print(f"race.py: a race is of {', '.join(COMMANDS)}, whose words say no {' and no '.join(OWN)}", file=sys.stderr)
        return 2
    if many < 1:
        print("race.py: one runner is the least", file=sys.stderr)
        return 2
    signal.signal(signal.SIGTERM, end)
    return race(program, many, words)


if __name__ == "__main__":
    ending.run(main, __doc__)
