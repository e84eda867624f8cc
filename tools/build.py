#!/usr/bin/env python3
"""Proves and builds a program, for the wrappers: the libraries that it stands on side by side, and then the program itself.

    build.py CRATE LOG [WORD ..]

The kit keeps to itself a copy of crates/ in which it proves. So each worker has a copy of its own, at first with no more than the sources. It
takes the next library whose own ones are done, first the one that most work waits for, and builds it there, over those that stand in this
repository's crates/, where each that is built is put. What was built there before is taken by the kit where its files are the same, so a build
that is ended goes on from there. What the kit says goes into LOG. There are as many workers as processors, and as memory holds. At last
the kit builds CRATE in its place and runs it on the words. Says on the standard error what is proved, and ends with the kit's status, or
with 1 where a library isn't proved.
"""
import os
import re
import shutil
import subprocess
import sys
import tempfile
import threading

TOP = os.path.dirname(os.path.dirname(os.path.abspath(__file__)))
CRATES = f"{TOP}/crates"
# What a proof may take of memory, in bytes, with one job.
ROOM = 4_500_000_000
PARTS = ("src", "specs", "proofs")
# What proofs took, in processor seconds on a slow machine (1 December 2026): an order goes by them, and nothing else. `tools/costs.py` measures them.
SECONDS = {
    "lls_analyse": 174,
    "lls_answers": 222,
    "lls_arena": 84,
    "lls_base": 108,
    "lls_cli": 318,
    "lls_cnf": 102,
    "lls_crew": 96,
    "lls_encode": 174,
    "lls_hensel": 132,
    "lls_least": 66,
    "lls_lrat": 312,
    "lls_open": 72,
    "lls_order": 180,
    "lls_problem": 156,
    "lls_prooflog": 240,
    "lls_rle": 126,
    "lls_search_file": 174,
    "lls_solver": 438,
    "lls_store": 90,
    "lls_symmetry": 90,
    "lls_trim": 174,
    "lls_watch": 120,
    "lls_words": 246,
}
LINES_A_SECOND = 30


def uses_of(text):
    """Returns the crates of crates.txt, each with those of them that it uses."""
    lines = re.findall(r"^([a-z0-9_]+)[^#:\n]*:([^#\n]*)", text, re.M)
    names = {name for name, _ in lines}
    return {name: [it for it in uses.split() if it in names] for name, uses in lines}


def below(uses, crate):
    """Returns the crates below one, each behind those that it uses."""
    found = []
    for it in uses[crate]:
        found += [name for name in [*below(uses, it), it] if name not in found]
    return found


def seconds_of(crate):
    """Returns about how many seconds a crate takes: as many as were measured, or else by its lines."""
    files = [f"{at}/{name}" for part in PARTS for at, _, names in os.walk(f"{CRATES}/{crate}/{part}") for name in names]
    return SECONDS.get(crate) or sum(open(it, "rb").read().count(b"\n") for it in files) / LINES_A_SECOND


def waiting(uses, crates):
    """Returns for each crate how many seconds the longest chain has that begins with it."""
    chain = {}
    for it in reversed(crates):
        chain[it] = seconds_of(it) + max((chain[other] for other in crates if it in uses[other]), default=0)
    return chain


def workers():
    with open("/proc/meminfo", encoding="utf-8") as file:
        free = 1024 * int(re.search(r"MemAvailable:\s+(\d+)", file.read())[1])
    return max(1, min(len(os.sched_getaffinity(0)), free // ROOM))


def sum_in(crates, crate):
    """Returns by which sum the kit knows of what files a built library is made: none where there is no library."""
    try:
        with open(f"{crates}/{crate}/out/rlib/stamp", encoding="utf-8") as file:
            return file.read()
    except FileNotFoundError:
        return None


def hand_on(crate, there, here):
    """Puts a library that is built in one copy of crates/ into another one, unless it is there."""
    found = sum_in(there, crate)
    if found in (None, sum_in(here, crate)):
        return
    built, room = f"{here}/{crate}/out/rlib", f"{here}/{crate}/out/rlib.new"
    for it in (room, built):
        shutil.rmtree(it, ignore_errors=True)
    shutil.copytree(f"{there}/{crate}/out/rlib", room)
    os.rename(room, built)


class Build:
    """The libraries that are left, and how far the workers have come."""

    def __init__(self, uses, crates, log):
        self.uses, self.left, self.done, self.log = uses, list(crates), set(), log
        self.left.sort(key=lambda it, chain=waiting(uses, crates): -chain[it])
        self.at, self.failed, self.turn = 0, None, threading.Condition()

    def next(self):
        """Returns a library whose own ones are done, and how many processors are free for it; None where none is left."""
        with self.turn:
            while self.left and not self.failed:
                ready = [it for it in self.left if all(below in self.done for below in self.uses[it])]
                if ready:
                    self.left.remove(ready[0])
                    self.at += 1
                    return ready[0], max(1, (len(os.sched_getaffinity(0)) - self.at + 1) // len(ready))
                self.turn.wait()
            return None

    def end(self, crate, ran):
        with self.turn:
            self.at -= 1
            self.log.write(f"== {crate}\n{ran.stdout}")
            self.log.flush()
            if ran.returncode:
                self.failed = self.failed or crate
            else:
                self.done.add(crate)
                print(f"lls: proved {crate}; libraries left: {len(self.left) + self.at}", file=sys.stderr, flush=True)
            self.turn.notify_all()

    def work(self, copy):
        """Builds one library after another in a copy of the sources."""
        while task := self.next():
            crate, jobs = task
            for it in [*below(self.uses, crate), crate]:
                hand_on(it, CRATES, copy)
            ran = subprocess.run(
                ["rt", "lib", "--jobs", str(jobs)],
                cwd=f"{copy}/{crate}",
                stdin=subprocess.DEVNULL,
                stdout=subprocess.PIPE,
                stderr=subprocess.STDOUT,
                text=True,
                errors="replace",
                check=False,
            )
            if not ran.returncode:
                hand_on(crate, copy, CRATES)
            self.end(crate, ran)


def main():
    crate, log, *words = sys.argv[1:]
    with open(f"{TOP}/crates.txt", encoding="utf-8") as file:
        uses = uses_of(file.read())
    with open(log, "w", encoding="utf-8") as log, tempfile.TemporaryDirectory(prefix="lls-build-") as room:
        build = Build(uses, below(uses, crate), log)
        threads = []
        for number in range(workers()):
            copy = f"{room}/{number}"
            shutil.copytree(CRATES, f"{copy}/crates", ignore=shutil.ignore_patterns("out"))
            for name in ("crates.txt", "HANDLES"):
                shutil.copy(f"{TOP}/{name}", copy)
            threads.append(threading.Thread(target=build.work, args=[f"{copy}/crates"], daemon=True))
        for it in threads:
            it.start()
        for it in threads:
            it.join()
        if build.failed:
            print(f"lls: {build.failed} isn't proved", file=sys.stderr)
            return 1
        how = {"cwd": f"{CRATES}/{crate}", "stdin": subprocess.DEVNULL, "stdout": log, "stderr": subprocess.STDOUT}
        return subprocess.run(["rt", "run", "--", *words], check=False, **how).returncode


if __name__ == "__main__":
    sys.exit(main())
