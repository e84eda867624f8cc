#!/usr/bin/env python3
"""Says what each module of a crate's proof took, by the clock, the dearest first: which function is worth to be cut.

    modules.py CRATE [COUNT]

The kit keeps what a check made, a file for each module, in crates/CRATE/out/incremental. With one job each file comes when its module is checked,
so the time since the file before is the module's, and that of what the kit makes besides. Before: `rm -r out; rt check --jobs 1` in the
crate's folder. The first module of a crate that is behind its statements has the time in which all functions' modules are made, too.

Of a function, Lts are its states: they grow with what it owns and with the number of its ways out. Proof is what is searched for the goals that
no file answers, Answers what its file answers, and Kinds and Tie are the borrow checker's part.
"""
import os
import sys

import ending

TOP = os.path.dirname(os.path.dirname(os.path.abspath(__file__)))
ENDING = ".oantt"
COUNT = 20
# A file that came so many seconds after the one before is of another check.
APART = 600


def files_below(folder):
    """Returns the modules' files below a folder: when each came, in seconds, and of which module it is."""
    for at, _, names in os.walk(folder):
        for name in names:
            if name.endswith(ENDING):
                yield os.stat(f"{at}/{name}").st_mtime_ns / 1e9, name[: -len(ENDING)].removesuffix(".decls")


def spent(files):
    """Returns what each module took of the last check, in seconds."""
    files = sorted(files)
    took = {}
    for (before, _), (came, module) in zip(files, files[1:]):
        if came - before > APART:
            took = {}
        else:
            took[module] = took.get(module, 0) + came - before
    return took


def main():
    crate, *count = ending.words(__doc__, "CRATE", "COUNT..")
    took = spent(files_below(f"{TOP}/crates/{crate}/out/incremental"))
    if not took:
        sys.exit(f"modules.py: nothing is kept of a check of {crate}")
    rows = sorted(took.items(), key=lambda row: -row[1])
    for module, seconds in rows[: ending.number(count[0], "COUNT") if count else COUNT]:
        print(f"{seconds:7.1f} {module.removeprefix(f'Rattle-{crate}').lstrip('-.') or crate}")
    print(f"{sum(took.values()):7.1f} all {len(took)}")


if __name__ == "__main__":
    ending.run(main, __doc__)
