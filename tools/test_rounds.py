#!/usr/bin/env python3
"""Tests of rounds.py over a program that answers what a test has laid out for each round.

    test_rounds.py
"""
import os
import socket
import tempfile
import unittest

import rounds
from test_tools import TOP, ran

# Its formula has three clauses. Round N answers what stands in `N.said`, with the status in its first line, and writes `N.part`; a formula that it is handed is
# kept as `N.cnf`. A proof is accepted where its last line adds the empty clause.
PROGRAM = """#!/bin/bash
cd "${0%/*}" || exit 1
case $1 in
cnf) [ "$2" = q.lls ] || exit 3; echo "${@:3}" >>asked; printf 'p cnf 4 3\\n1 2 0\\n-1 2 0\\n3 4 0\\n' ;;
sat)
    n=$(($(cat round) + 1))
    echo $n >round
    echo "${@:4}" >>how
    cp "$2" $n.cnf
    cp $n.part "$3" 2>/dev/null
    tail -n +2 $n.said
    exit $(head -n 1 $n.said)
    ;;
check | lrat)
    ! grep -q bad "$3" || { echo 'refused: NotImplied 1'; exit 1; }
    grep -q '^[0-9]* 0 ' "$3" || { echo 'refused: NoEmpty'; exit 1; }
    echo accepted
    ;;
judge) [ "$(cat "$3")" = '0 1 0 1' ] && echo meets ;;
esac
"""
# The clauses 4 and 5 behind the formula, and 5 goes. The next round has 4, and learns two more; the third has all three, the shortest ones first.
FIRST = "4 2 0 1 2 0\n5 3 2 0 3 0\n5 d 5 0\n"
SECOND = "5 4 2 0 4 3 0\n6 4 0 5 0\n"
THIRD = "7 0 5 6 4 0\n"
FIRST_TWO = FIRST + "6 4 2 0 4 3 0\n7 4 0 6 0\n"
WHOLE = FIRST_TWO + "8 0 7 6 4 0\n"
MODEL = "s SATISFIABLE\nv -1 2 -3 4 0\n"
UNDECIDED = (30, "s UNKNOWN\n")


class Searches(unittest.TestCase):
    def setUp(self):
        folder = tempfile.TemporaryDirectory()
        self.addCleanup(folder.cleanup)
        self.folder = folder.name

    def write(self, name, text):
        with open(f"{self.folder}/{name}", "w", encoding="utf-8") as file:
            file.write(text)
        os.chmod(f"{self.folder}/{name}", 0o755)

    def read(self, name):
        if not os.path.exists(f"{self.folder}/{name}"):
            return None
        with open(f"{self.folder}/{name}", encoding="utf-8") as file:
            return file.read()

    def searched(self, rounds, *before, asked=("search", "q.lls"), words=(), log=None):
        """What a search in these rounds comes to, each of them a status, what is printed, and what is learnt."""
        for name in os.listdir(self.folder):
            os.remove(f"{self.folder}/{name}")
        for name, text in (("lls", PROGRAM), ("q.lls", "* * * *\n"), ("f.cnf", "c a formula\np cnf  4 3\n1 2 0 -1 2\n0 3 4 0"), ("round", "0"), ("how", "")):
            self.write(name, text)
        for number, (status, said, *part) in enumerate(rounds, 1):
            self.write(f"{number}.said", f"{status}\n{said}")
            if part:
                self.write(f"{number}.part", part[0])
        if log is not None:
            self.write("log", log)
        done = ran(f"{TOP}/tools/rounds.py", "--lls", f"{self.folder}/lls", *before, *asked, "proof", *words, folder=self.folder)
        self.assertEqual([name for name in os.listdir(self.folder) if name.startswith(".")], [])
        return done

    def test_answers(self):
        accepted = (20, "no pattern\n")
        rows = [
            ("an absence in the third round", [(*UNDECIDED, FIRST), (*UNDECIDED, SECOND), (20, "s UNSATISFIABLE\n", THIRD)], (), None, accepted, WHOLE),
            ("a pattern in the second", [(*UNDECIDED, FIRST), (10, MODEL)], (), None, (10, "0 1 0 1\n"), FIRST),
            ("a pattern in the first", [(10, MODEL)], (), None, (10, "0 1 0 1\n"), None),
            ("another pattern than that of the judge", [(10, MODEL.replace("-3", "3"))], (), None, (1, ""), None),
            ("from a log", [(*UNDECIDED, SECOND), (20, "", THIRD)], ("--from", "log"), FIRST, accepted, WHOLE),
            ("from a log that ends it", [], ("--from", "log"), WHOLE, accepted, WHOLE),
            ("from a log with a bad step", [(20, "", FIRST)], ("--from", "log"), "bad\n" + FIRST, (1, ""), None),
            ("a refusal", [(2, "")], (), None, (2, ""), None),
        ]
        for name, rounds, before, log, ends, proof in rows:
            done = self.searched(rounds, *before, log=log)
            self.assertEqual((done[:2], self.read("proof")), (ends, proof), (name, done))

    def test_each_round_has_what_is_live(self):
        self.searched([(*UNDECIDED, FIRST), (*UNDECIDED, SECOND), (20, "", THIRD)])
        formulas = [self.read(f"{number}.cnf").splitlines() for number in (1, 2, 3)]
        own = ["1 2 0", "-1 2 0", "3 4 0"]
        self.assertEqual(formulas, [["p cnf 4 3", *own], ["p cnf 4 4", *own, "2 0"], ["p cnf 4 6", *own, "2 0", "4 0", "4 2 0"]])

    def test_formulas(self):
        done = self.searched([(*UNDECIDED, FIRST), (20, "", SECOND.replace("4 0 5", "0 5"))], asked=("sat", "f.cnf"))
        self.assertEqual((done[:2], self.read("proof")), ((20, "s UNSATISFIABLE\n"), FIRST + "6 4 2 0 4 3 0\n7 0 6 0\n"))
        self.assertEqual(self.read("2.cnf"), "c a formula\np cnf  4 4\n1 2 0 -1 2\n0 3 4 0\n2 0\n")
        self.assertEqual(self.searched([(10, MODEL)], asked=("sat", "f.cnf"))[:2], (10, MODEL))

    def test_budgets(self):
        """They double, up to what is left of that of all rounds and of the time; the manner is that of the question."""
        self.assertEqual(self.searched([(*UNDECIDED, FIRST)] * 3, "--round", "3", words=("--budget", "6"))[:2], (30, "undecided\n"))
        self.assertEqual(self.read("how"), "--budget=3 --manner=restless\n--budget=4 --manner=restless\n--budget=2 --manner=restless\n")
        self.searched([(*UNDECIDED, FIRST), (20, "", "6 0 5 4 0\n")], "--seconds", "1000", words=("--period=4", "--first", "3"))
        self.assertEqual(self.read("how"), "--budget=10000 --first=3 --manner=steady\n--budget=20000 --first=3 --manner=steady\n")
        self.assertEqual(self.searched([(*UNDECIDED, FIRST)], "--seconds", "0")[:2], (30, "undecided\n"))

    def test_the_fewest_and_the_most(self):
        """Each look has a bound more, before those of the words, and a log of its own."""
        absent = (20, "s UNSATISFIABLE\n", THIRD)
        rows = [
            ("least", [(10, MODEL), (*UNDECIDED, FIRST), (*UNDECIDED, SECOND), absent], (10, "least 2\n0 1 0 1\n"), ["0:1-,2:5-5", "0:-1,0:1-,2:5-5"], WHOLE),
            ("most", [(*UNDECIDED, FIRST), (10, MODEL), absent], (10, "most 2\n0 1 0 1\n"), ["0:1-,2:5-5", "0:3-,0:1-,2:5-5"], "4 0 5 6 4 0\n"),
            ("least", [absent], (20, "no pattern\n"), ["0:1-,2:5-5"], "4 0 5 6 4 0\n"),
            ("least", [(10, MODEL), (5, "")], (5, "at most 2\n0 1 0 1\n"), ["0:1-,2:5-5", "0:-1,0:1-,2:5-5"], None),
        ]
        for command, rounds, ends, bounds, proof in rows:
            done = self.searched(rounds, asked=(command, "q.lls"), words=("--live", "0:1-,2:5-5"))
            self.assertEqual((done[:2], self.read("asked").split(), self.read("proof")), (ends, [f"--live={bound}" for bound in bounds], proof), (rounds, done))
        done = self.searched([(10, MODEL), (*UNDECIDED, FIRST)], asked=("most", "q.lls"), words=("--budget", "2"))
        self.assertEqual((done[:2], self.read("proof")), ((30, "at least 2\n0 1 0 1\n"), FIRST), done)

    def test_what_a_process_that_was_killed_left(self):
        front = f".proof.rounds.{socket.gethostname()}."
        with tempfile.TemporaryDirectory() as folder:
            for name in (f"{front}{2**30}", f"{front}1", ".other.rounds.1"):
                os.mkdir(f"{folder}/{name}")
            with rounds.Room(f"{folder}/proof"):
                self.assertEqual(sorted(os.listdir(folder)), sorted([f"{front}1", f"{front}{os.getpid()}", ".other.rounds.1"]))
            self.assertEqual(sorted(os.listdir(folder)), sorted([f"{front}1", ".other.rounds.1"]))

    def test_what_cant_be(self):
        for asked, words, status in ((("open", "q.lls"), (), 2), (("search", "q.lls"), ("--crew", "2"), 2), (("search", "other.lls"), (), 3), (("search", "q.lls"), ("--budget", "x"), 1)):
            done = self.searched([(20, "", FIRST)], asked=asked, words=words)
            self.assertEqual((done[0], self.read("how")), (status, ""), asked)


if __name__ == "__main__":
    unittest.main()
