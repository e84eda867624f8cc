#!/usr/bin/env python3
"""Compares docs/proved.md's lists of calls that may refuse with the public calls of the crates that answer a `Result`.

    refusals.py

Public are the functions, and the functions of types and traits, that a crate's src/lib.rt names or whose module it makes public. Prints each
call that one side alone has, and ends with 1 where there is one.
"""
import glob
import os
import re
import sys

import ending

TOP = os.path.dirname(os.path.dirname(os.path.abspath(__file__)))
HEADING = "## What stands after a refusal\n"
# The head of an impl or a trait, its end, or the head of a function up to its clauses or its body.
PART = re.compile(
    r"^(?P<end>\})"
    r"|^(?P<impl>impl\b[^{]*)\{(?!\})"
    r"|^pub trait (?P<trait>\w+)"
    r"|^ *(?P<pub>pub )?fn (?P<name>\w+)(?P<rest>.*?)(?=\n *(?:requires|ensures)\b|;\n| \{\n|\n *\{\n)",
    re.M | re.S,
)


def read(path):
    with open(path, encoding="utf-8") as file:
        return file.read()


def exported(lib):
    """The names and the modules that a library makes public."""
    names = set()
    for used in re.findall(r"^pub use [\w:]*?::(\{[^}]*\}|\w+);", lib, re.M):
        names |= set(re.findall(r"\w+", used))
    return names, set(re.findall(r"^pub mod (\w+);", lib, re.M))


def calls_of(text, names, is_public_module):
    """The calls of a module that answer a `Result`, by their names, those of types behind the type's."""
    within, is_trait, is_other = None, False, False
    for part in PART.finditer(text):
        if part["end"]:
            within, is_trait, is_other = None, False, False
        elif part["impl"]:
            head = re.sub(r"^impl(<[^>]*>)? *", "", part["impl"])
            within, is_other = re.match(r"\w+", head)[0], " for " in head
        elif part["trait"]:
            within, is_trait = part["trait"], True
        elif re.search(r"-> *Result<", part["rest"]) and not is_other and (part["pub"] or is_trait):
            if is_public_module or (within or part["name"]) in names:
                yield f"{within}::{part['name']}" if within else part["name"]


def public_calls():
    calls = set()
    for path in glob.glob(f"{TOP}/crates/*/src/lib.rt"):
        folder = os.path.dirname(path)
        crate = os.path.basename(os.path.dirname(folder))
        if crate.endswith("_tests"):
            continue
        names, modules = exported(read(path))
        for source in glob.glob(f"{folder}/**/*.rt", recursive=True):
            module = os.path.relpath(source, folder).removesuffix(".rt").split("/")[0]
            calls |= {(crate, call) for call in calls_of(read(source), names, module in modules)}
    return calls


def listed_calls():
    """The calls of docs/proved.md: those in the table's second column, and those behind a crate's name in the list."""
    part = read(f"{TOP}/docs/proved.md").partition(HEADING)[2].partition("\n## ")[0]
    rows = re.findall(r"^\| `(lls\w*)` \| ([^|]*)", part, re.M) + re.findall(r"^- `(lls\w*)`: (.*)", part, re.M)
    return {(crate, call) for crate, names in rows for call in re.findall(r"`([\w:]+)`", names)}


def main():
    ending.words(__doc__)
    there, listed = public_calls(), listed_calls()
    for crate, call in sorted(there - listed):
        print(f"docs/proved.md doesn't say what stands after a refusal of {crate}'s {call}", file=sys.stderr)
    for crate, call in sorted(listed - there):
        print(f"docs/proved.md says what stands after a refusal of {crate}'s {call}, which is no public call that may refuse", file=sys.stderr)
    return 0 if there == listed and there else 1


if __name__ == "__main__":
    ending.run(main, __doc__)
