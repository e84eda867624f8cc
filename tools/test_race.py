#!/usr/bin/env python3
"""Tests of race.py over a program that answers as the way says in which it searches.

    test_race.py
"""
import os
import tempfile
import unittest

from test_tools import TOP, ran

# The file that is searched has a line for each way, a manner or a manner and a number: how long it takes, the status, and what it prints.
PROGRAM = """#!/bin/bash
way=$(sed 's/.*--manner //; s/ --first //' <<<"$*")
read -r name seconds status text < <(grep "^$way " "$2")
echo $$ >>pids
read -rt "$seconds" _ <> <(:)
[ "$status" -eq 10 ] || echo "$way" >"$3"
echo "$text"
[ "$status" -lt 10 ] && echo "lls: $text" >&2
exit "$status"
"""


class Races(unittest.TestCase):
    def setUp(self):
        folder = tempfile.TemporaryDirectory()
        self.addCleanup(folder.cleanup)
        self.folder = folder.name
        self.write("lls", PROGRAM)

    def write(self, name, text):
        with open(f"{self.folder}/{name}", "w", encoding="utf-8") as file:
            file.write(text)
        os.chmod(f"{self.folder}/{name}", 0o755)

    def race(self, asked, *words, many=2):
        """What a race of so many runners over the question comes to, and the proof that it leaves behind an old one."""
        self.write("q.lls", asked)
        self.write("proof", "old\n")
        done = ran(f"{TOP}/tools/race.py", "--lls", f"{self.folder}/lls", "--runners", str(many), *(words or ("search", "q.lls", "proof")), folder=self.folder)
        with open(f"{self.folder}/proof", encoding="utf-8") as file:
            proof = file.read()
        self.assertEqual([it for it in os.listdir(self.folder) if it.startswith(".")], [])
        return done, proof

    def test_the_first_answer_counts(self):
        rows = [
            ("restless 0 20 none\nsteady 60 20 late\n", 20, "none\n", "restless"),
            ("restless 60 20 late\nsteady 0 20 none\n", 20, "none\n", "steady"),
            ("restless 60 20 late\nsteady 0 10 pattern\n", 10, "pattern\n", None),
            ("restless 0 30 undecided\nsteady 0.2 20 none\n", 20, "none\n", "steady"),
            ("restless 0.2 30 one\nsteady 0 30 other\n", 30, "one\n", "restless"),
        ]
        for asked, status, out, manner in rows:
            done, proof = self.race(asked)
            self.assertEqual(done, (status, out, ""), asked)
            self.assertEqual(proof.strip(), manner or "old", asked)

    def test_more_runners_search_in_other_ways(self):
        slow = "restless 60 20 late\nsteady 60 20 late\n"
        for many, asked, status, out, way in [
            (4, slow + "restless1 0 20 none\nsteady1 60 20 late\n", 20, "none\n", "restless1"),
            (4, slow + "restless1 60 20 late\nsteady1 0 20 none\n", 20, "none\n", "steady1"),
            (5, slow + "restless1 60 20 late\nsteady1 60 20 late\nrestless2 0 10 pattern\n", 10, "pattern\n", "old"),
            (3, "restless 0.2 30 one\nsteady 0 30 other\nrestless1 0 30 third\n", 30, "one\n", "restless"),
            (1, "restless 0 20 none\n", 20, "none\n", "restless"),
        ]:
            done, proof = self.race(asked, many=many)
            self.assertEqual((done, proof.strip()), ((status, out, ""), way), asked)

    def test_no_process_is_left(self):
        self.race("restless 60 20 late\nsteady 0 10 pattern\n")
        with open(f"{self.folder}/pids", encoding="utf-8") as file:
            self.assertEqual([pid for pid in file.read().split() if os.path.exists(f"/proc/{pid}")], [])

    def test_a_refusal_is_said(self):
        done, proof = self.race("restless 0 3 content\nsteady 0 3 content\n")
        self.assertEqual(done, (3, "content\n", "lls: content\n"))

    def test_words_that_are_no_race(self):
        for words in [("judge", "q.lls", "p"), ("search", "q.lls", "p", "--manner", "steady"), ("sat", "q.lls", "p", "--manner=both"), ("open", "q.lls", "p", "--first", "3")]:
            done, _ = self.race("", *words)
            self.assertEqual(done, (2, "", "race.py: a race is of search, sat, least, most, open, whose words say no --manner and no --first\n"))

    def test_no_number_of_runners(self):
        for many, status, err in [("0", 2, "race.py: one runner is the least\n"), ("x", 1, "race.py: the number of runners is a number, and not 'x'\n")]:
            self.assertEqual(self.race("", many=many)[0], (status, "", err))


if __name__ == "__main__":
    unittest.main()
