#!/usr/bin/env python3
"""Searches a question in pieces on all processors, for the page: what `tools/spread.py` does in three commands, as one run.

    spreading.py PROGRAM SEARCH PROOF ANSWER [OPTION ..]

Ends with 20 and `no pattern` where there is none, with the proof in PROOF, and with 10 and the pattern where there is one.
"""
import os
import subprocess
import sys

TOOLS = os.path.dirname(os.path.dirname(os.path.abspath(__file__)))
PIECES = "pieces"


def main():
    program, search, proof, _, *options = sys.argv[1:]
    spread = [sys.executable, os.path.join(TOOLS, "spread.py")]
    begun = subprocess.run([*spread, "start", search, PIECES, *options, "--bare", "--lls", program], stdout=sys.stderr, check=False).returncode
    if begun:
        return begun
    ran = subprocess.Popen([*spread, "run", PIECES], stdout=subprocess.PIPE, text=True)
    pattern = None
    # What it says as it goes is no answer; at a pattern it says its file.
    for line in ran.stdout:
        print(line, end="", file=sys.stderr, flush=True)
        if line.startswith("pattern: "):
            pattern = line.removeprefix("pattern: ").split(", judged by")[0]
    ended = ran.wait()
    if ended == 10 and pattern is not None:
        with open(pattern, encoding="ascii") as file:
            print(file.read(), end="")
    if ended != 20:
        return ended
    joined = subprocess.run([*spread, "join", PIECES, proof], stdout=sys.stderr, check=False).returncode
    if joined:
        return joined
    print("no pattern")
    return 20


if __name__ == "__main__":
    sys.exit(main())
