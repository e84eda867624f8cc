#!/usr/bin/env python3
"""Tests of the forms in which pictures come: pictures.py, place.py and fits.py, and what show.py and pose.py make of them.

    test_pictures.py

Takes a few seconds and needs neither the proved program nor a package. What is known of the ten pictures is from the LifeWiki; `.ci/examples`
has the program judge them.
"""
import os
import unittest

import pictures
import words
from test_tools import ran, scratch

FOLDER = "examples/pictures"
# file: form, columns and rows, live cells, rule
TEN = {
    "beacon.lif": ("Life 1.06", 4, 4, 6, None),
    "blinker.rle": ("RLE", 3, 1, 3, "B36/S23"),
    "block.rle": ("RLE", 2, 2, 4, "B3678/S34678"),
    "figure-eight.cells": ("plaintext", 6, 6, 12, None),
    "glider.rle": ("RLE", 3, 3, 5, "B3/S23"),
    "lightweight.rle": ("RLE", 5, 4, 9, None),
    "loafer.rle": ("RLE", 9, 9, 20, "B3/S23"),
    "pentadecathlon.rle": ("RLE", 10, 3, 12, "b3/s23"),
    "pulsar.cells": ("plaintext", 13, 13, 48, None),
    "toad.lif": ("Life 1.05", 4, 2, 6, "B3/S23"),
}
GLIDER = [[0, 1, 0], [0, 0, 1], [1, 1, 1]]


def content(name):
    with open(f"{FOLDER}/{name}", encoding="utf-8") as file:
        return file.read()


class Ten(unittest.TestCase):
    """The pictures of the folder, in the forms of collections."""

    def setUp(self):
        self.addCleanup(os.chdir, os.getcwd())
        os.chdir(os.path.dirname(os.path.dirname(os.path.abspath(__file__))))

    def test_all_are_there(self):
        self.assertEqual(sorted(os.listdir(FOLDER)), sorted(TEN))

    def test_read(self):
        for name, known in TEN.items():
            with self.subTest(name):
                (picture,) = pictures.pictures_of(content(name))
                rows = picture.rows
                self.assertEqual((picture.form, len(rows[0]), len(rows), sum(map(sum, rows)), picture.rule), known)

    def test_a_history_and_marks_of_a_forum(self):
        text = "[CODE]x = 4, y = 2, rule = LifeHistory\n.A2B$CDEF!\n[/code]\n"
        self.assertTrue(pictures.is_picture(text))
        (picture,) = pictures.pictures_of(text)
        self.assertEqual((picture.rows, picture.rule), ([[0, 1, 0, 0], [1, 0, 1, 0]], "B3/S23"))
        self.assertEqual(pictures.rule_of("B36/S23History")[0], "B36/S23")
        with self.assertRaises(pictures.BadPicture):
            pictures.pictures_of("x = 2, y = 1, rule = Brain\nAB!\n")

    def test_drawn(self):
        for name, (_, width, height, live, _) in TEN.items():
            status, out, err = ran("tools/show.py", "--about", f"{FOLDER}/{name}")
            self.assertEqual((status, out, err), (0, f"generation 0: {live} live in a box of {width} by {height} at column 0, row 0\n", ""), name)

    def test_posed(self):
        for name, (_, width, height, live, rule) in TEN.items():
            for kind, ring in (("predecessor", 0), ("orphan", 2)):
                status, out, err = ran("tools/pose.py", kind, f"{FOLDER}/{name}", "--margin", "1")
                rows = [line.split() for line in out.split("\n\n")[1].splitlines()]
                self.assertEqual((status, len(rows), {len(row) for row in rows}), (0, height + 2 + ring, {width + 2 + ring}), name)
                self.assertEqual(sum(row.count("1") for row in rows), live, name)
                self.assertEqual(f"--rule {rule}" in err, rule is not None, name)
                self.assertEqual("note: the bounded grid 'T64,64'" in err, name == "loafer.rle", name)

    def test_placed(self):
        for name, (_, width, height, live, rule) in TEN.items():
            grid = scratch(self, "grid.lls", "\n".join(["* " * (width + 2)] * (height + 3)))
            status, out, _ = ran("tools/place.py", grid, f"{FOLDER}/{name}", "--at", "2,1")
            (placed,) = pictures.pictures_of(out)
            self.assertEqual((status, len(placed.rows[0]), len(placed.rows), sum(map(sum, placed.rows))), (0, width + 2, height + 3, live), name)
            self.assertEqual([row[2:] for row in placed.rows[1 : height + 1]], pictures.pictures_of(content(name))[0].rows, name)
            self.assertEqual(placed.rule, rule or "B3/S23", name)


class Forms(unittest.TestCase):
    def test_glider_in_each_form(self):
        texts = [
            "x = 3, y = 3\nbob$2bo$3o!",
            "#C no header\nbo$\n2bo$3o\n!\n",
            "!\n.O.\n..O\nOOO\n",
            ".O\n..O\nOOO\n\n",
            "#Life 1.05\n#D in two blocks\n#P 4 7\n.*\n..*\n#P 4 9\n***\n",
            "#Life 1.06\n-7 -1\n-6 0\n-8 1\n-7 1\n-6 1\n",
        ]
        for text in texts:
            with self.subTest(text):
                self.assertTrue(pictures.is_picture(text))
                self.assertEqual([picture.rows for picture in pictures.pictures_of(text)], [GLIDER])

    def test_search_files_are_no_pictures(self):
        for text in ("", "0 1\n", "x y\n", "O\n", "* *\n* *\n", "# a comment!\n1\n", "b o\n", "no pattern\n", "OOO\n"):
            self.assertFalse(pictures.is_picture(text), text)

    def test_faults(self):
        texts = {
            "": "no picture in ",
            "0 1 0\n": "no picture in ",
            "x = 3, y = 3\nbo$2A!\n": "no item of an RLE: '2A!'",
            "#Life 1.07\n": "Life 1.07, and only 1.05 and 1.06 are known here",
            "#Life 1.05\n.*.\n.x.\n": "no row of `.` and `*`: '.x.'",
            "#Life 1.06\n1\n": "no column and row: '1'",
            "x = 10001, y = 1\no!\n": "a picture of more than 10000 rows or columns",
            "9999999o!\n": "a picture of more than 10000 rows or columns",
            "#Life 1.06\n0 0\n99999 0\n": "a picture of more than 10000 rows or columns",
        }
        for text, why in texts.items():
            with self.subTest(text), self.assertRaises(pictures.BadPicture) as found:
                pictures.pictures_of(text)
            self.assertTrue(str(found.exception).startswith(why), found.exception)

    def test_rules(self):
        rows = [
            ("HighLife", "B36/S23", 0),
            ("Day & Night", "B3678/S34678", 0),
            ("Conway's Life", "B3/S23", 0),
            ("B3/S23:T30,20", "B3/S23", 1),
            ("Seeds:P10,10", "B2/S", 1),
            ("B2-a/S12", "B2-a/S12", 0),
            ("23/3", "23/3", 0),
        ]
        for text, rule, notes in rows:
            found = pictures.rule_of(text)
            self.assertEqual((found[0], len(found[1])), (rule, notes), text)

    def test_rules_of_comments(self):
        self.assertEqual(pictures.pictures_of("#r 23/36\nx = 1, y = 1\no!\n")[0].rule, "23/36")
        self.assertEqual(pictures.pictures_of("#Life 1.05\n#R 23/36\n*\n")[0].rule, "23/36")
        self.assertEqual(pictures.pictures_of("#r 23/36\nx = 1, y = 1, rule = B3/S23\no!\n")[0].rule, "B3/S23")

    def test_same_rules(self):
        same = [("B3/S23", "b3s23"), ("23/3", "B3/S23"), ("B2-a/S12", "B2ceikn/S12"), ("B08/S", "/08"), ("B2-ae/S", "B2-ea/S")]
        other = [("B3/S23", "B36/S23"), ("23/3", "3/23"), ("B2-a/S12", "B2/S12"), ("B2c/S", "B2-c/S"), ("B0/S", "B/S0")]
        self.assertTrue(all(words.rule_sides(one) == words.rule_sides(two) for one, two in same))
        self.assertFalse(any(words.rule_sides(one) == words.rule_sides(two) for one, two in other))


class Notes(unittest.TestCase):
    """What fits.py says of a picture that is judged."""

    def notes(self, picture, *more, grid="* * *\n" * 3):
        search, name = scratch(self, "q.lls", grid), scratch(self, "p.rle", picture)
        status, out, err = ran("tools/fits.py", "judge", search, name, "--as", "rle", *more)
        self.assertEqual((status, err), (0, ""))
        return out.replace(search, "q.lls").replace(name, "p.rle")

    def test_nothing_to_say(self):
        for picture, more in (
            ("x = 3, y = 3, rule = B3/S23\n3o!\n", []),
            ("x = 3, y = 3, rule = 23/3\n3o!\n", []),
            ("x = 3, y = 3, rule = HighLife\n3o!\n", ["--rule", "b36s23"]),
            ("x = 9, y = 9\n3o!\n", ["--rule=B2/S"]),
            ("no picture\n", []),
        ):
            self.assertEqual(self.notes(picture, *more), "", picture)

    def test_another_rule(self):
        behind = "; --rule B36/S23 judges it under its own\n"
        said = "lls: note: p.rle names the rule B36/S23, and is judged under "
        self.assertEqual(self.notes("x = 1, y = 1, rule = HighLife\no!\n"), f"{said}B3/S23{behind}")
        self.assertEqual(self.notes("x = 1, y = 1, rule = B36/S23\no!\n", "--rule=B2/S"), f"{said}B2/S{behind}")
        unknown = "lls: note: p.rle names the rule 'Wireworld', which is not known here, and is judged under B3/S23\n"
        self.assertEqual(self.notes("x = 1, y = 1, rule = Wireworld\no!\n"), unknown)

    def test_a_bounded_grid(self):
        self.assertIn("the bounded grid 'T9,9'", self.notes("x = 1, y = 1, rule = B3/S23:T9,9\no!\n"))

    def test_a_larger_picture(self):
        said = "lls: note: p.rle is 4 wide and 2 high, and the grid of q.lls 3 by 3; tools/place.py places a picture elsewhere in it\n"
        self.assertEqual(self.notes("x = 4, y = 2\n$3bo!\n"), said)

    def test_of_other_commands_nothing(self):
        for line in ("check q.lls p.rle", "judge q.lls p.rle", "judge q.lls p.rle --as rle", "judge", ""):
            self.assertEqual(ran("tools/fits.py", *line.split()), (0, "", ""), line)


class Placing(unittest.TestCase):
    def placed(self, picture, *more, grid="* * * *\n" * 3):
        return ran("tools/place.py", scratch(self, "q.lls", grid), scratch(self, "p", picture), *more)

    def test_texts(self):
        rows = [
            ("bo$2bo$3o!", [], "bo$2bo$3o!"),
            ("3o!", ["--at", "1,2"], "2$b3o!"),
            ("o2$o!", [], "o2$o!"),
            ("bo!", ["--at=-1,0"], "o!"),
            ("!\n.\n", [], "!"),
        ]
        for picture, more, items in rows:
            self.assertEqual(self.placed(picture, *more)[:2], (0, f"x = 4, y = 3, rule = B3/S23\n{items}\n"), picture)

    def test_lines_are_short(self):
        status, out, _ = self.placed("o" + "bo" * 60 + "!", grid="* " * 130)
        self.assertEqual((status, max(map(len, out.splitlines())) <= 70), (0, True))
        self.assertEqual(pictures.pictures_of(out)[0].rows[0][:121], [1] + [0, 1] * 60)

    def test_refusals(self):
        rows = [
            ("3o!", ["--at", "2,0"], "a live cell comes to column 4, row 0, outside of the grid of 4 by 3"),
            ("x = 1, y = 1, rule = Wireworld\no!", [], "the rule 'Wireworld' is not in B/S notation, and its name is not known here"),
            ("1 0\n", [], "no picture in RLE, plaintext (.cells), Life 1.05 or Life 1.06"),
        ]
        for picture, more, why in rows:
            status, out, err = self.placed(picture, *more)
            self.assertEqual((status, out), (1, ""))
            self.assertTrue(err.endswith(f"{why}\n"), err)
        self.assertEqual(self.placed("o!", "--at", "1")[0], 2)


class Posing(unittest.TestCase):
    def test_at(self):
        name = scratch(self, "p.cells", "!\nOO\n")
        out = ran("tools/pose.py", "predecessor", name, "--margin", "1", "--at", "2,0")[1]
        self.assertEqual(out.split("\n\n")[1], "0 0 1 1\n0 0 0 0\n0 0 0 0\n")

    def test_refusals(self):
        name = scratch(self, "p.cells", "!\nOO\n")
        self.assertIn("outside of the grid of 4 by 3", ran("tools/pose.py", "orphan", name, "--margin", "1", "--at", "3,0")[2])
        name = scratch(self, "p.rle", "x = 1, y = 1, rule = Wireworld\no!\n")
        self.assertIn("its name is not known here", ran("tools/pose.py", "orphan", name)[2])


if __name__ == "__main__":
    unittest.main()
