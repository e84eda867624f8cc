#!/usr/bin/env python3
"""Tests of spread.py that need no program: pieces, budgets, the joined proof's text, slips. `.ci/spread` tries it with the program.

    test_spread.py
"""
import contextlib
import io
import json
import os
import tempfile
import time
import unittest
import unittest.mock

import spread
from test_tools import ran

SEARCH = "a * *'\n1 -a 0\n* * *\n\n* * *\n* 1' *\n* * *\n"


ASKED = {"options": ["--period=1"], "budget": 100, "cells": 1, "clauses": 50, "lls": "lls", "order": [[0, 1], [2, 1], [0, 2], [2, 0], [2, 2]]}


class Pieces(unittest.TestCase):
    def setUp(self):
        folder = tempfile.TemporaryDirectory()
        self.addCleanup(folder.cleanup)
        self.folder = folder.name
        os.mkdir(f"{self.folder}/pieces")
        self.write("search.lls", SEARCH)
        self.write("asked.json", json.dumps(ASKED))

    def write(self, name, text):
        with open(f"{self.folder}/{name}", "w", encoding="utf-8") as file:
            file.write(text)

    def piece(self, name):
        return spread.Piece(spread.Spread(self.folder), name)

    def test_cells_nearest_to_the_middle_come_first(self):
        generation = self.piece("r").spread.generations[0]
        self.assertEqual(spread.splitting_order(generation), [(0, 1), (2, 1), (0, 2), (2, 0), (2, 2)])
        self.assertEqual(spread.unknown_cells(generation), [(0, 1), (0, 2), (2, 0), (2, 1), (2, 2)])

    def test_named_and_marked_cells_stay(self):
        rows = [" ".join(row) for row in self.piece("r101").generations()[0]]
        self.assertEqual(rows, ["a 1 1'", "1 -a 0", "* 0 *"])
        self.assertEqual(self.piece("r101").generations()[1], [["*", "*", "*"], ["*", "1'", "*"], ["*", "*", "*"]])

    def test_budgets_double(self):
        self.write("pieces/r0.split", "1")
        self.write("pieces/r01.split", "2")
        self.assertEqual([self.piece(name).budget() for name in ("r0", "r01", "r0110")], [100, 200, 400])
        self.write("pieces/r01.tries", "3")
        self.assertEqual(self.piece("r01").budget(), 1600)

    def joined(self):
        spread.join_to(spread.Spread(self.folder), f"{self.folder}/joined")
        with open(f"{self.folder}/joined", encoding="ascii") as file:
            return file.read().splitlines()

    def test_parts_are_joined(self):
        # Clause 51 of each piece is the unit of its cell. The left one derives 52, which it deletes, and 53; the right one nothing.
        self.write("pieces/r0.proof", "52 4 0 2 1 7 0\n53 5 0 52 3 0\n53 d 52 9 0\n54 0 53 51 0\n")
        self.write("pieces/r1.proof", "52 0 1 2 51 0\n")
        self.assertEqual(self.joined(), [
            "51 4 2 0 2 1 7 0",
            "52 5 2 0 51 3 0",
            "52 d 51 0",
            "53 2 0 52 0",
            "53 d 52 0",
            "54 -2 0 1 2 0",
            "55 0 53 54 0",
            "55 d 53 54 0",
        ])

    def test_what_was_learnt_before_a_split_is_joined(self):
        # The left piece learnt two clauses, and was split. Its parts have them as 53 and 54, behind the units of two cells.
        self.write("pieces/r0.1", "52 4 0 2 1 0\n53 4 5 0 52 3 0\n")
        self.write("pieces/r0.live", "1\n4\n4 5\n")
        self.write("pieces/r0.split", "1")
        self.assertEqual(spread.text_of(self.piece("r01")), "-2 0\n8 0\n4 0\n4 5 0\n")
        self.write("pieces/r00.proof", "55 0 53 51 2 0\n")
        self.write("pieces/r01.proof", "55 6 0 54 52 0\n56 0 55 53 0\n")
        self.write("pieces/r1.proof", "52 0 1 2 51 0\n")
        self.assertEqual(self.joined(), [
            "51 4 2 0 2 1 0",
            "52 4 5 2 0 51 3 0",
            "53 2 8 0 51 2 0",
            "54 6 2 -8 0 52 0",
            "55 2 -8 0 54 51 0",
            "55 d 54 0",
            "56 2 0 53 55 0",
            "56 d 53 55 51 52 0",
            "57 -2 0 1 2 0",
            "58 0 56 57 0",
            "58 d 56 57 0",
        ])

    def test_a_second_search_goes_on_from_the_first(self):
        # The second one of the left piece has 4 of the first as 52, and deletes nothing of it; 6 is shorter than 4 5, and nothing is let go.
        self.write("pieces/r0.1", "52 4 5 0 2 1 0\n53 6 0 52 3 0\n")
        self.write("pieces/r0.live", "1\n6\n4 5\n")
        self.write("pieces/r0.proof", "54 7 0 52 53 0\n55 0 54 51 0\n")
        self.write("pieces/r1.proof", "52 0 1 2 51 0\n")
        self.assertEqual(self.joined()[:5], ["51 4 5 2 0 2 1 0", "52 6 2 0 51 3 0", "53 7 2 0 52 51 0", "54 2 0 53 0", "54 d 52 51 53 0"])

    def test_how_it_stands(self):
        self.write("pieces/r0.split", "1")
        self.write("pieces/r00.proof", "1 0 1 0\n")
        leaves = list(spread.Spread(self.folder).leaves())
        self.assertEqual([leaf.name for leaf in leaves], ["r00", "r01", "r1"])
        self.assertEqual(spread.stands(leaves), (2, 1, 0.25))

    def test_what_ended_is_taken(self):
        def taken(name):
            piece = self.piece(name)
            return spread.take_ended(piece.spread, piece)

        self.write("pieces/r0.ended", "20 sum here 7.5\n9 1 0 1 0\n10 0 9 0\n")
        self.write("pieces/r1.ended", "30 sum there 3\n52 4 8 0 2 1 0\n53 9 0 52 0\n54 8 0 53 0\n54 d 53 0\n")
        self.assertEqual([taken(name) for name in ("r0", "r1", "r00")], [20, 30, None])
        self.assertEqual(sorted(os.listdir(f"{self.folder}/pieces")), ["r0.proof", "r0.took", "r1.1", "r1.live", "r1.other"])
        self.assertEqual(self.piece("r1").learnt(), (1, [b"8", b"4 8"]))
        self.assertEqual(self.piece("r0").took(), ("here", 7.5))
        # Behind the other manner a piece is split.
        self.assertEqual([self.piece(name).manner() for name in ("r0", "r1")], ["restless", "steady"])
        self.write("pieces/r1.ended", "30 sum there 3\n54 6 7 0 52 0\n")
        with unittest.mock.patch("spread.cells_to_split", return_value=3):
            self.assertEqual(taken("r1"), 30)
        self.assertEqual((self.piece("r1").split_by(), self.piece("r1").learnt()), (3, (2, [b"8", b"4 8", b"6 7"])))
        self.assertEqual([leaf.name for leaf in self.piece("r").spread.leaves()], ["r0", *(f"r1{number:03b}" for number in range(8))])

    def test_answers_that_do_not_count(self):
        self.write("asked.json", json.dumps({**ASKED, "sum": "mine"}))
        for ended in ("20 other here 1\n9 0 1 0\n", "30 other here 1\n9 1 0 1 0\n", "30 mine here 1\n9 1 0 1 0\n10 4 0 1", "20 mine here 1\n9 1 0 1 0\n", "20 mine here 1\n9 0 1 ", "20 mine here 1\n"):
            self.write("pieces/r0.ended", ended)
            piece = self.piece("r0")
            with contextlib.redirect_stderr(io.StringIO()) as said:
                self.assertIsNone(spread.take_ended(piece.spread, piece))
            self.assertIn("here has another program" if "other" in ended else "what it learnt is cut off", said.getvalue())
            self.assertEqual(os.listdir(f"{self.folder}/pieces"), [])

    def test_patterns(self):
        # A model begins with the cells.
        self.write("pieces/r0.ended", "10 sum here 2\ns SATISFIABLE\nv 1 -2 3 4 -5 -6 -7 -8 -9\nv 10 -11 12 -13 -14 15 -16 17 -18 19 0\n")
        piece = self.piece("r0")
        self.assertEqual(spread.take_ended(piece.spread, piece), 10)
        with open(piece.path("pattern"), encoding="ascii") as file:
            self.assertEqual(file.read(), "1 0 1\n1 0 0\n0 0 0\n\n1 0 1\n0 0 1\n0 1 0\n")

    def test_how_many_cells(self):
        self.assertEqual([spread.cells_for(pieces) for pieces in (1, 2, 3, 4, 5, 64)], [0, 1, 2, 2, 3, 6])
        for share, begun, split in ((0, 5, 3), (0.5, 5, 1), (0.6, 3, 1), (1, 3, 1)):
            with unittest.mock.patch("spread.share_done", return_value=share):
                self.assertEqual((spread.cells_to_begin_with(self.piece("r").spread, 8), spread.cells_to_split(self.piece("r0"))), (begun, split), share)
                self.assertEqual(spread.cells_to_split(self.piece("r0101")), 1)

    def test_the_other_manner(self):
        for options, manner in [([], "steady"), (["--edge=open"], "restless"), (["--period=3"], "restless"), (["--period=3,1,0"], "steady"), (["--period=4,1,1"], "restless"), (["--period=2"], "steady")]:
            self.assertEqual(spread.manners_of(options)[1], manner, options)

    def test_how_it_looks(self):
        self.write("pieces/r0.proof", "1 0 1 0\n")
        self.write("pieces/r0.took", "here 90\n")
        self.write("pieces/r1.runs", f"there {time.time() - 300:.0f}\n")
        leaves = list(spread.Spread(self.folder).leaves())
        self.assertEqual(spread.standing(leaves), "1 open, 1 closed, 50 % of the space closed, 90 seconds of one processor may be left")
        self.assertEqual([spread.state_of(leaf) for leaf in leaves], ["closed by here in 90 seconds", "open, at there for 5.0 minutes"])

    def test_locks(self):
        piece = self.piece("r0")
        with spread.Lock(piece, 60) as lock:
            self.assertTrue(lock.is_held)
            with spread.Lock(piece, 60) as other:
                self.assertFalse(other.is_held)
            self.assertTrue(piece.has("lock"))
        self.assertFalse(piece.has("lock"))
        # Whoever made a file that is too old is gone.
        with open(piece.path("lock"), "wb"):
            os.utime(piece.path("lock"), (0, 0))
        with spread.Lock(piece, 60) as lock:
            self.assertTrue(lock.is_held)
        self.assertEqual(os.listdir(os.path.dirname(piece.path("lock"))), [])

    def test_options_of_the_file(self):
        for line, options in [
            ("#! --period 3 --differ 0,1", ["--period=3", "--differ=0,1"]),
            ("#! --rule=B36/S23 --edge open\r", ["--rule=B36/S23", "--edge=open"]),
            ("#!/bin/sh", []),
            ("# --period 3", []),
        ]:
            self.assertEqual(spread.options_in(f"# a question\n{line}\n* *\n"), options)
        for line in ("#! --low B3/S2", "#! --period", "#! --budget 9"):
            self.assertRaises(spread.Stop, spread.options_in, f"{line}\n")

    def test_slips(self):
        for words, why in [
            (["run", "/nowhere"], "/nowhere: no search is laid out here; `start` does that"),
            (["join", self.folder, "proof"], "2 pieces are open; `run` goes on with them"),
            (["start", "examples/one-cell.lls", self.folder], f"{self.folder} is there already"),
        ]:
            self.assertEqual(ran("tools/spread.py", *words), (1, "", f"spread.py: {why}\n"), words)
        for words in ([], ["fly"], ["start", "a"], ["start", "a", "b", "--budget", "0"]):
            status, _, err = ran("tools/spread.py", *words)
            self.assertEqual(status, 2, words)
            self.assertNotIn("Traceback", err)


if __name__ == "__main__":
    unittest.main()
