#!/usr/bin/env python3
"""Runs the commands that the documents show, and compares what they print.

    documents.py [DOCUMENT ..]

With no DOCUMENT: README.md and both parts of the tutorial. A command is a line of a code block that begins with `$ `; what follows it, up to
the next such line or the end of the block, is what it has to print on its two streams. Blocks without such a line aren't run. The
commands of a document run one after the other, in a fresh folder that has this repository's `lls`, `tools`, `docs` and a copy of `examples`;
`$ echo $?` shows the status of the one before. A command begins with `./lls`, `tools/` or a word of PLAIN: anything else is a fault,
so that nothing is passed over.

Ends with exit status 1 where a command prints something else, or takes more than SECONDS.
"""
import os
import re
import shutil
import subprocess
import sys
import tempfile

import ending

TOP = os.path.dirname(os.path.dirname(os.path.abspath(__file__)))
SECONDS = 120
PLAIN = ("cat", "cp", "echo", "head", "tail", "wc")


class Command:
    """A command, the number of its line, and the lines that it has to print."""

    def __init__(self, line, text):
        self.line, self.text, self.wanted = line, text, []


def commands_of(document):
    """Returns the commands of a document's code blocks, which are fenced or indented by four blanks."""
    commands, current, is_fenced = [], None, False
    for number, line in enumerate(document.split("\n"), 1):
        if line.startswith("```"):
            is_fenced, current = not is_fenced, None
        elif not is_fenced and line.strip() and not line.startswith("    "):
            current = None
        elif is_fenced or line.startswith("    ") or current:
            line = line if is_fenced else line[4:]
            if line.startswith("$ "):
                current = Command(number, line[2:])
                commands.append(current)
            elif current:
                current.wanted.append(line)
    for command in commands:
        while command.wanted and not command.wanted[-1].strip():
            command.wanted.pop()
    return commands


def is_ours(text):
    return text.startswith(("./lls ", "tools/")) or re.match(r"\w*", text).group(0) in PLAIN


def run(text, status, folder):
    """Returns what a command prints in a folder, line by line, and its status. `$?` is the given status before it."""
    words = ["bash", "-c", f"(exit {status})\n{text}"]
    try:
        ran = subprocess.run(
            words, cwd=folder, stdin=subprocess.DEVNULL, stdout=subprocess.PIPE, stderr=subprocess.STDOUT, timeout=SECONDS, check=False
        )
    except subprocess.TimeoutExpired:
        return [f"(more than {SECONDS} seconds)"], None
    lines = ran.stdout.decode("utf-8", "replace").rstrip("\n").split("\n")
    return ([] if lines == [""] else lines), ran.returncode


def difference(command, found):
    """Returns the words that say how a command's output differs, or None."""
    wanted = [line.rstrip() for line in command.wanted]
    found = [line.rstrip() for line in found]
    if found == wanted:
        return None
    return "\n".join([f"$ {command.text}", "  wanted:", *(f"    {line}" for line in wanted), "  found:", *(f"    {line}" for line in found)])


def faults_of(document, folder):
    """Runs a document's commands in a folder, and returns how many there are and each fault, as a line and words."""
    commands, faults, status = commands_of(document), [], 0
    for command in commands:
        if not is_ours(command.text):
            faults.append((command.line, f"$ {command.text}\n  this tool doesn't run such a command"))
            continue
        found, status = run(command.text, status, folder)
        words = difference(command, found)
        if words:
            faults.append((command.line, words))
        status = 1 if status is None else status
    return len(commands), faults


def main():
    names = sys.argv[1:] or ["README.md", "docs/tutorial.md", "docs/tutorial-2.md"]
    # Where the program isn't there yet, it is made here, and not inside a command's time.
    made = subprocess.run([f"{TOP}/lls", "rule", "B3/S23"], stdout=subprocess.DEVNULL, check=False)
    if made.returncode != 0:
        sys.exit("documents: there is no program to run")
    is_wrong = False
    for name in names:
        with open(os.path.join(TOP, name), encoding="utf-8") as file, tempfile.TemporaryDirectory() as folder:
            for shared in ("lls", "tools", "docs"):
                os.symlink(f"{TOP}/{shared}", f"{folder}/{shared}")
            shutil.copytree(f"{TOP}/examples", f"{folder}/examples")
            count, faults = faults_of(file.read(), folder)
        for line, words in faults:
            print(f"documents: {name}:{line}: {words}", file=sys.stderr)
        print(f"documents: {name}: {count} commands, {len(faults)} at fault")
        is_wrong = is_wrong or faults or count == 0
    return 1 if is_wrong else 0


if __name__ == "__main__":
    ending.run(main, __doc__)
