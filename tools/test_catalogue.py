#!/usr/bin/env python3
"""Tests of catalogue.py over a program that answers as the search file says, and of the repository's own table of entries.

    test_catalogue.py
"""
import hashlib
import os
import tempfile
import unittest

from test_tools import TOP, ran

CATALOGUE = f"{TOP}/tools/catalogue.py"
HEAD = "name\tsentence\tbesides\tanswer\twords\tadditions\tbytes\tseconds\tsha256\tknown\n"
# The file that is asked about has what a search of it writes, its status and its text, and what `check` and `judge` say of it.
PROGRAM = """#!/bin/bash
while read -r key value; do declare "$key=$value"; done < <(tail -n +2 "$2")
case $1 in
search) [ "$status" -ne 20 ] || echo "$proof" >"$3"; printf "%b\\n" "$text"; exit "$status" ;;
*) echo "$verdict"; [ "$verdict" != refused ]; exit ;;
esac
"""

# A program that finds nothing in any piece.
PIECES = """#!/bin/bash
case $1 in
cnf) echo 'p cnf 4 5' ;;
sat) echo '7 0 1 6 0' >"$3"; echo 's UNSATISFIABLE'; exit 20 ;;
check) echo accepted ;;
esac
"""


def sum_of(text):
    return hashlib.sha256(text.encode()).hexdigest()


class Entries(unittest.TestCase):
    def setUp(self):
        folder = tempfile.TemporaryDirectory()
        self.addCleanup(folder.cleanup)
        self.folder = folder.name
        self.write("lls", PROGRAM)
        self.write("none.lls", "#! --period 2\nstatus 20\ntext no pattern\nproof 9 1 0 0\nverdict accepted\n")
        self.write("some.lls", "#! --period 2\nstatus 10\ntext x = 1, y = 1\\\\no!\\\\nx = 1, y = 1\\\\nb!\nverdict meets\n")
        self.write("some.rle", "x = 1, y = 1\no!\n")
        self.rows = [
            f"none\tThere is nothing.\tthe ring\tnone\t--budget 9\t1\t8\t0.50\t{sum_of('9 1 0 0' + chr(10))}\tfound here",
            f"some\tThere is one.\tnothing\tpattern\t\t-\t16\t0.10\t{sum_of('x = 1, y = 1' + chr(10) + 'o!' + chr(10))}\tfound here",
        ]
        self.table()

    def write(self, name, text):
        with open(f"{self.folder}/{name}", "w", encoding="utf-8") as file:
            file.write(text)
        os.chmod(f"{self.folder}/{name}", 0o755)

    def table(self):
        self.write("entries.tsv", HEAD + "".join(row + "\n" for row in self.rows))

    def call(self, *words):
        return ran(CATALOGUE, "--folder", self.folder, *words)

    def check(self, *words):
        """The status of a check, and its lines without the seconds."""
        status, out, err = self.call("check", *words, "--lls", f"{self.folder}/lls")
        return status, [line.rsplit(",", 1)[0] if line.endswith(" s") else line for line in out.splitlines()], err

    def test_what_is_as_it_is_said(self):
        self.assertEqual(self.check("--all"), (0, ["none: none, accepted", "some: pattern, meets", "2 of 2 entries are as they are said"], ""))
        self.assertEqual(self.check("--all", "--jobs", "2")[0], 0)
        self.assertEqual(self.check("--within", "0.3")[1][0], "some: pattern, meets")
        self.assertEqual(self.check("none")[1][-1], "1 of 1 entries are as they are said")

    def test_what_is_wrong_is_said_by_name(self):
        rows = [
            ("none.lls", "proof 9 1 0 0", "proof 9 2 0 0", "none: WRONG: the answer holds, but its bytes have another SHA-256 than the entry says"),
            ("none.lls", "verdict accepted", "verdict refused", "none: WRONG: check ends with 1 and 'refused', and not with 0 and 'accepted'"),
            ("none.lls", "status 20", "status 10", "none: WRONG: search ends with 10 and 'no pattern', and not with 20 and 'no pattern'"),
            ("some.lls", "verdict meets", "verdict refused", "some: WRONG: judge ends with 1 and 'refused', and not with 0 and 'meets'"),
            ("some.rle", "o!", "oo!", "some: WRONG: the answer holds, but its bytes have another SHA-256 than the entry says"),
        ]
        for name, old, new, line in rows:
            with open(f"{self.folder}/{name}", encoding="utf-8") as file:
                text = file.read()
            self.write(name, text.replace(old, new))
            status, lines, _ = self.check("--all")
            self.assertEqual((status, line in lines, lines[-1]), (1, True, "1 of 2 entries are as they are said"), lines)
            self.write(name, text)
        os.remove(f"{self.folder}/some.rle")
        self.assertIn("some.rle is missing", self.check("some")[1][0])

    def test_tables_that_are_wrong(self):
        self.rows.append(self.rows[0])
        self.table()
        self.assertEqual(self.check("--all")[::2], (2, "catalogue.py: none stands twice in entries.tsv\n"))
        self.rows[2] = "a b"
        self.table()
        self.assertEqual(self.check("--all")[0], 2)
        self.rows[2:] = []
        self.table()
        self.assertEqual(self.check("other")[::2], (2, "catalogue.py: there is no entry other\n"))
        self.assertEqual(self.check("--within", "0")[::2], (2, "catalogue.py: no entry is to be checked\n"))

    def test_what_is_added_is_as_it_is_said(self):
        for name, answer in (("none", "none"), ("some", "pattern")):
            words = ("add", f"{name}-2", f"{self.folder}/{name}.lls", "A sentence.", "the ring", "found here", "--lls", f"{self.folder}/lls")
            status, out, err = self.call(*words)
            self.assertEqual((status, err), (0, ""), out)
            self.assertTrue(out.startswith(f"{name}-2: {answer}"), out)
            self.assertEqual(self.check(f"{name}-2")[0], 0)
            self.assertEqual(self.call(*words)[0], 2)
        self.assertIn("A sentence.", self.call("list")[1])

    def test_what_cannot_be_added_leaves_nothing(self):
        with open(f"{self.folder}/some.lls", encoding="utf-8") as file:
            text = file.read()
        for name, change in (("open", ("status 10", "status 30")), ("broken", ("verdict meets", "verdict refused"))):
            self.write("some.lls", text.replace(*change))
            before = sorted(os.listdir(self.folder))
            words = ("add", name, f"{self.folder}/some.lls", "A sentence.", "the ring", "found here", "--lls", f"{self.folder}/lls")
            self.assertEqual(self.call(*words)[0], 2)
            self.assertEqual(sorted(os.listdir(self.folder)), before)

    def test_in_pieces(self):
        """Two pieces, each refuted by the formula's first clause and the one behind the formula that fixes its cell."""
        self.write("lls", PIECES)
        self.write("none.lls", "#! --period 1\n* *\n\n* *\n")
        joined = "6 1 0 1 0\n7 -1 0 1 0\n8 0 6 7 0\n8 d 6 7 0\n"
        self.rows = [f"none\tThere is nothing.\tthe ring\tnone\tspread --cells 1\t3\t{len(joined)}\t0.50\t{sum_of(joined)}\tfound here"]
        self.table()
        self.assertEqual(self.check("none"), (0, ["none: none, accepted", "1 of 1 entries are as they are said"], ""))
        self.assertIn("    tools/spread.py run pieces\n", self.call("show", "none")[1])

    def test_an_entry_is_shown(self):
        status, out, err = ran(CATALOGUE, "show", "still-4x4-no-9")
        self.assertEqual((status, err), (0, ""))
        self.assertIn("Question: catalogue/still-4x4-no-9.lls --period 1 --live 0:9-\n", out)
        self.assertTrue(out.endswith("    ./lls check catalogue/still-4x4-no-9.lls still-4x4-no-9.proof\n"), out)

    def test_the_table_here(self):
        status, out, err = ran(CATALOGUE, "list")
        self.assertEqual((status, err), (0, ""))
        names = {line.split()[0] for line in out.splitlines()}
        files = {os.path.splitext(it)[0] for it in os.listdir(f"{TOP}/catalogue")} - {"entries"}
        self.assertEqual(names, files)
        self.assertGreaterEqual(len(names), 60)


if __name__ == "__main__":
    unittest.main()
