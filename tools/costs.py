#!/usr/bin/env python3
"""Says what each crate costs of a gate, in processor minutes: its proof, its tests, its must-fail edits.

    costs.py COMMAND WORD..

Runs the command, usually `rt ci`, and looks each half second at the processes of the prover that it began, and no others. Prints a table
on standard error when the command ends, and ends with its status. A process that lives shorter than half a second isn't seen.
"""
import os
import subprocess
import sys
import time

import ending

TICKS = os.sysconf("SC_CLK_TCK")
KINDS = ("proof", "tests", "edits")


def kind_of(pid, words):
    """Returns what a process of the prover works at."""
    if "/rt-edit-" in os.readlink(f"/proc/{pid}/cwd"):
        return "edits"
    return "tests" if "--test" in words else "proof"


def fields_of(pid):
    """Returns what the system says of a process behind its name: its parent is the 2nd field, its start the 20th."""
    with open(f"/proc/{pid}/stat", encoding="utf-8", errors="replace") as file:
        return file.read().rpartition(")")[2].split()


def is_below(pid, top):
    """Says whether a process was begun by `top`, or by one that was."""
    while pid > 1:
        if pid == top:
            return True
        pid = int(fields_of(pid)[1])
    return False


def look(seen, top):
    """Notes the processor seconds of each process of the prover below `top`, by process, crate and kind."""
    for pid in filter(str.isdigit, os.listdir("/proc")):
        try:
            with open(f"/proc/{pid}/cmdline", encoding="utf-8", errors="replace") as file:
                words = file.read().split("\0")
            if not words[0].endswith("/rattle") or "--crate-name" not in words or not is_below(int(pid), top):
                continue
            crate = words[words.index("--crate-name") + 1]
            kind = kind_of(pid, words)
            fields = fields_of(pid)
        except (OSError, IndexError):
            continue
        # User and system time are the 12th and 13th fields.
        seen[pid, fields[19], crate, kind] = (int(fields[11]) + int(fields[12])) / TICKS


def table(seen):
    """Returns the lines of the table, the dearest crate first."""
    spent = {}
    for (_, _, crate, kind), seconds in seen.items():
        spent.setdefault(crate, dict.fromkeys(KINDS, 0.0))[kind] += seconds
    rows = sorted(spent.items(), key=lambda row: -sum(row[1].values()))
    rows.append(("all", {kind: sum(row[kind] for row in spent.values()) for kind in KINDS}))
    lines = ["| Crate | Proof | Tests | Edits | Sum |", "|---|---|---|---|---|"]
    for crate, row in rows:
        cells = [f"{row[kind] / 60:.1f}" for kind in KINDS] + [f"{sum(row.values()) / 60:.1f}"]
        lines.append(f"| {crate} | {' | '.join(cells)} |")
    return lines


def main():
    words = ending.words(__doc__, "COMMAND", "WORD..")
    seen, start = {}, time.time()
    running = subprocess.Popen(words)
    while running.poll() is None:
        look(seen, running.pid)
        time.sleep(0.5)
    for line in table(seen):
        print(line, file=sys.stderr)
    print(f"{(time.time() - start) / 60:.0f} minutes, {os.cpu_count()} processors", file=sys.stderr)
    return running.returncode


if __name__ == "__main__":
    ending.run(main, __doc__)
