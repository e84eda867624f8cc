#!/usr/bin/env python3
"""Tests of the scripts for people: show.py, pose.py, rle.py, documents.py, the wrapper's own words, the completion and the man page; and of
what the gate reads of the must-fail edits.

    test_tools.py

Takes a few seconds and needs neither the proved program nor a package. What is expected was worked out by hand.
"""
import os
import re
import shutil
import subprocess
import sys
import tempfile
import unittest
import xml.etree.ElementTree

import documents
import modules
import rle
import show

TOP = os.path.dirname(os.path.dirname(os.path.abspath(__file__)))
GLIDER = "#C a glider\nx = 3, y = 3, rule = B3/S23\nbob$2bo$3o!\n"


def ran(*words, text="", folder=TOP):
    """Returns the status of a command and what it prints on its two streams."""
    if words[0].endswith(".py"):
        words = (sys.executable, *words)
    done = subprocess.run(words, input=text, capture_output=True, text=True, encoding="utf-8", cwd=folder, check=False, timeout=60)
    return done.returncode, done.stdout, done.stderr


def scratch(case, name, text):
    """Returns the path of a new file with a text, which goes when the test ends."""
    folder = tempfile.TemporaryDirectory()
    case.addCleanup(folder.cleanup)
    path = os.path.join(folder.name, name)
    with open(path, "w", encoding="utf-8") as file:
        file.write(text)
    return path


class Rle(unittest.TestCase):
    def test_glider(self):
        (pattern,) = rle.read_rles(GLIDER)
        self.assertEqual(pattern.rows, [[0, 1, 0], [0, 0, 1], [1, 1, 1]])
        self.assertEqual(pattern.rule, "B3/S23")

    def test_counts_rows_and_line_ends(self):
        (pattern,) = rle.read_rles("x=4,y=4\n2\no $ $\n3b\no2$2o! what follows\n")
        self.assertEqual(pattern.rows, [[1, 1, 0, 0], [0, 0, 0, 0], [0, 0, 0, 1], [0, 0, 0, 0], [1, 1, 0, 0]])
        self.assertIsNone(pattern.rule)

    def test_header_says_the_size(self):
        patterns = rle.read_rles("x = 2, y = 2\n!\nx = 3, y = 1\no!\n")
        self.assertEqual([pattern.rows for pattern in patterns], [[[0, 0], [0, 0]], [[1, 0, 0]]])

    def test_faults(self):
        for text in ("", "bo$!", "x = 3, y = 3\nbob", "x = 3, y = 3\n2a!", "x = 3, y = 3\n2 2o!"):
            with self.subTest(text), self.assertRaises(rle.BadRle):
                rle.read_rles(text)


class Show(unittest.TestCase):
    def shown(self, text, *words):
        status, out, err = ran("tools/show.py", *words, text=text)
        self.assertEqual((status, err), (0, ""))
        return out

    def test_history(self):
        text = "0 1 0\n0 0 1\n1 1 1\n\n0 0 0\n1 0 1\n0 1 1\n"
        self.assertEqual(self.shown(text), "0     1\n┌───┐ ┌───┐\n│ ▀▄│ │▄ ▄│\n│▀▀▀│ │ ▀▀│\n└───┘ └───┘\n")

    def test_rle_is_drawn_as_rows_are(self):
        self.assertEqual(self.shown(GLIDER), self.shown("0 1 0\n0 0 1\n1 1 1\n"))

    def test_rles_one_behind_the_other_are_generations(self):
        self.assertEqual(self.shown("x = 3, y = 2\n2$!\nx = 3, y = 2\n3o!\n"), self.shown("0 0 0\n0 0 0\n\n1 1 1\n0 0 0\n"))

    def test_narrow_terminal(self):
        out = self.shown("1\n\n0\n\n1\n", "--width", "7")
        self.assertEqual(out, "0   1\n┌─┐ ┌─┐\n│▀│ │ │\n└─┘ └─┘\n2\n┌─┐\n│▀│\n└─┘\n")

    def test_search_file(self):
        out = self.shown("# unknown, named, marked\n1 * a\n0 -a' 1'\n")
        self.assertEqual(out, "0\n┌─────────┐\n│ ██ ??  a│\n│  ·-a' 1'│\n└─────────┘\n")

    def test_names_are_no_header(self):
        self.assertEqual(self.shown("x y\n"), "0\n┌────┐\n│ x y│\n└────┘\n")

    def test_answers_without_a_pattern_are_handed_on(self):
        for answer in ("no pattern\n", "undecided\n"):
            self.assertEqual(self.shown(answer), answer)

    def test_lines_above_a_pattern_are_handed_on(self):
        for line in ("least 1", "at most 12", "most 1", "at least 12", "B2-a3/S", "B/S"):
            self.assertEqual(self.shown(f"{line}\n1\n"), f"{line}\n0\n┌─┐\n│▀│\n└─┘\n")
        self.assertEqual(self.shown("least 1\n1\n", "--about"), "least 1\ngeneration 0: 1 live in a box of 1 by 1 at column 0, row 0\n")

    def test_faults(self):
        for text in ("", "least 1\n", "0 2\n", "x = 1, y = 1\no\n", "accepted; done\n"):
            status, out, err = ran("tools/show.py", text=text)
            self.assertEqual((status, out), (1, ""))
            self.assertRegex(err, r"^show\.py: .+\n$")

    def svg(self, *words):
        path = scratch(self, "picture.svg", "")
        self.assertEqual(ran("tools/show.py", "--svg", path, *words), (0, "", ""))
        with open(path, encoding="utf-8") as file:
            self.assertEqual(ran("tools/show.py", "--svg", "-", *words), (0, file.read(), ""))
        return xml.etree.ElementTree.parse(path).getroot()

    def test_svg_has_each_live_and_unknown_cell(self):
        rects = [rect.get("class") for rect in self.svg("examples/blinker.lls").iter("{http://www.w3.org/2000/svg}rect")]
        self.assertEqual((rects.count("live"), rects.count("open")), (3, 9))

    def test_svg_places(self):
        path = scratch(self, "one.lls", "0 0\n0 1\n\n1 0\n0 0\n")
        rects = [rect for rect in self.svg(path).iter("{http://www.w3.org/2000/svg}rect") if rect.get("class") == "live"]
        first, second = [(int(rect.get("x")), int(rect.get("y"))) for rect in rects]
        # The grids are two cells wide and a cell apart: the second one's left end is three cells right of the first one's.
        self.assertEqual((second[0] - first[0], second[1] - first[1]), (2 * show.SIZE, -show.SIZE))

    def test_names_have_colours(self):
        path = scratch(self, "names.lls", "a b' -a\n* b a\n")
        rects = [rect for rect in self.svg(path).iter("{http://www.w3.org/2000/svg}rect") if rect.get("class") == "open"]
        a, b, opposite, unknown, again, same = (rect.get("style") for rect in rects)
        self.assertEqual((a, b, unknown), (same, again, None))
        self.assertEqual(len({a, b, opposite, None}), 4)

    def test_the_picture_of_a_margin(self):
        asked = scratch(self, "line.lls", ran("tools/pose.py", "oscillator", "3", "1", "2", "--margin", "1")[1])
        blinker = ["0 0 0 0 0\n0 1 1 1 0\n0 0 0 0 0\n", "0 0 1 0 0\n" * 3]
        answer = scratch(self, "line.pattern", "\n".join(blinker + blinker[:1]))
        with open(f"{TOP}/docs/margin.svg", encoding="utf-8") as file:
            self.assertEqual(ran("tools/show.py", asked, answer, "--svg", "-")[1], file.read())

    def test_the_picture_of_the_symmetries(self):
        with open(f"{TOP}/docs/symmetries.svg", encoding="utf-8") as file:
            self.assertEqual(ran("tools/show.py", "examples/symmetries.lls", "--svg", "-")[1], file.read())

    def test_a_later_phase_with_fewer_or_more(self):
        rows = [
            ("least 2\n1 1\n\n1 0\n", "generation 1 has 1: where the file is the same in each generation, `tools/pose.py --fewest phase` asks for any phase"),
            ("at most 2\n1 1\n\n1 0\n", "generation 1 has 1: where the file is the same in each generation, `--live 0:-1` goes on"),
            ("at least 1\n1 0\n\n0 0\n\n1 1\n", "generation 2 has 2: where the file is the same in each generation, `--live 0:2-` goes on"),
        ]
        for text, note in rows:
            self.assertEqual(ran("tools/show.py", text=text)[2], f"show.py: note: {note}\n")
        for text in ("least 1\n1 0\n\n1 1\n", "most 2\n1 1\n", "1 1\n\n1 0\n"):
            self.assertEqual(ran("tools/show.py", text=text)[2], "")

    def test_status_of_the_search_in_front(self):
        rows = [("no pattern\n", 20), ("undecided\n", 30), ("1\n", 10), ("least 1\n1\n", 10), ("at most 1\n1\n", 30), ("most 1\n1\n", 10), ("at least 0\n0\n", 30), ("B3/S23\n1\n", 10)]
        for text, status in rows:
            self.assertEqual(ran("tools/show.py", "--status", text=text)[0], status, text)
            self.assertEqual(ran("tools/show.py", text=text)[0], 0, text)
        self.assertEqual(ran("tools/show.py", "--status", "--about", text="1\n")[0], 10)

    def test_the_picture_of_a_glide(self):
        _, out, _ = ran("tools/show.py", "examples/glide.lls", "examples/glide.pattern", "--svg", "-")
        with open(f"{TOP}/docs/glide.svg", encoding="utf-8") as file:
            self.assertEqual(out, file.read())
        with open(f"{TOP}/examples/glide.lls", encoding="utf-8") as file:
            self.assertEqual(ran("tools/pose.py", "glide", "5", "5", "2", "1")[1], file.read())

    def test_animation_has_a_step_a_generation(self):
        steps = list(self.svg("--animate", "examples/glider.pattern").iter("{http://www.w3.org/2000/svg}animate"))
        self.assertEqual([step.get("values").split(";").index("visible") for step in steps], [0, 1, 2, 3, 4])

    def test_animation_goes_round(self):
        path = scratch(self, "blinker.pattern", "000\n111\n000\n\n010\n010\n010\n\n000\n111\n000\n".replace("0", "0 ").replace("1", "1 "))
        self.assertEqual(len(list(self.svg("--animate", path).iter("{http://www.w3.org/2000/svg}animate"))), 2)

    def test_animation_needs_a_file(self):
        self.assertEqual(ran("tools/show.py", "--animate", "examples/glider.pattern")[0], 2)


class Pose(unittest.TestCase):
    def posed(self, *words):
        status, out, err = ran("tools/pose.py", *map(str, words))
        self.assertEqual(status, 0, err)
        return out, err

    @staticmethod
    def ways(count):
        return f"note: it looks the same in {count} ways; --images one asks for one solution of each kind\n"

    def test_one_of_each_kind(self):
        rows = [
            ("still 3 3", "--period 1 --live 0:1-", "of up to 8"),
            ("oscillator 3 2 2", "--period 2 --differ 0,1", "of up to 4"),
            ("spaceship 3 3 4 1 1", "--period 4,1,1 --live 0:1-", "of up to 2"),
            ("spaceship 3 3 2 1 0", "--period 2,1,0 --live 0:1-", "of up to 2"),
            ("spaceship 3 3 4 1 2", "--period 4,1,2 --live 0:1-", "it looks the same in no other way, so --images one changes nothing"),
            ("torus 2 2 1", "--edge open --period 1 --live 0:1-", "of up to 8"),
            ("still 1 1", "--period 1 --live 0:1-", "it looks the same in no other way, so --images one changes nothing"),
        ]
        for words, options, said in rows:
            out, err = self.posed(*words.split(), "--images", "one")
            self.assertEqual(out.split("\n")[0], f"#! {options} --images one")
            self.assertTrue(err.endswith(f"{said}\n"), (words, err))
        self.assertNotIn("ways", self.posed("still", 1, 1)[1])

    def test_still(self):
        out, err = self.posed("still", 3, 2)
        self.assertEqual(out, "#! --period 1 --live 0:1-\n* * *\n* * *\n\n* * *\n* * *\n")
        self.assertEqual(err, "options: --period 1 --live 0:1-\n" + self.ways(4))

    def test_oscillator_with_a_margin(self):
        self.assertEqual(self.posed("oscillator", 2, 1, 2), self.posed("oscillator", 2, 1, 2, "--margin", 1))
        out, err = self.posed("oscillator", 2, 1, 2, "--margin", 1)
        free = "* * * *\n* * * *\n* * * *\n"
        self.assertEqual(out, "#! --period 2 --differ 0,1\n0 0 0 0\n0 * * 0\n0 0 0 0\n\n" + free + "\n" + free)
        note = "note: all phases have to lie in the grid of 4 by 3; --margin 2 leaves them more room\n"
        self.assertEqual(err, "options: --period 2 --differ 0,1\n" + note + self.ways(4))

    def test_oscillators_of_smaller_periods_are_kept_out(self):
        rows = {3: "--differ 0,1", 4: "--differ 0,2", 6: "--exact yes", 8: "--differ 0,4", 9: "--differ 0,3", 12: "--exact yes", 30: "--exact yes"}
        for period, told in rows.items():
            err = self.posed("oscillator", 1, 1, period, "--margin", 0)[1]
            room = "note: all phases have to lie in the grid of 1 by 1; --margin 1 leaves them more room\n"
            self.assertEqual(err, f"options: --period {period} {told}\n{room}")

    def test_bands_regions_and_phases(self):
        self.assertEqual(self.posed("still", 3, 3, "--band", 1)[0].split("\n\n")[0], "#! --period 1 --live 0:1-\n* * 0\n* * *\n0 * *")
        with tempfile.NamedTemporaryFile("w", suffix=".rle") as picture:
            picture.write("x = 3, y = 2, rule = B3/S23\nobo$bo!\n")
            picture.flush()
            self.assertEqual(self.posed("oscillator", 3, 3, 2, "--margin", 0, "--region", picture.name)[0].split("\n\n")[0], "#! --period 2 --differ 0,1\n* 0 *\n0 * 0\n0 0 0")
        out, err = self.posed("oscillator", 1, 1, 2, "--fewest", "phase")
        free = "* * *\n* * *\n* * *\n"
        self.assertEqual(out, "#! --period 2 --differ 0,1\n" + "\n".join([free] * 3))
        self.assertIn("note: generation 0 is any phase, so the fewest live cells of it are the fewest of all phases\n", err)
        status, _, err = ran("tools/pose.py", "still", "1", "1", "--region", "/no/such")
        self.assertEqual((status, err), (2, "pose.py: /no/such: No such file or directory\n"))

    def test_spaceship_has_room_to_move(self):
        out, err = self.posed("spaceship", 2, 1, 1, -1, 2, "--margin", 0)
        self.assertEqual(out, "#! --period 1,-1,2 --live 0:1-\n0 * *\n0 0 0\n0 0 0\n\n* * *\n* * *\n* * *\n")
        note = "note: all phases have to lie in the grid of 3 by 3; --margin 1 leaves them more room\n"
        self.assertEqual(err, "options: --period 1,-1,2 --live 0:1-\n" + note)

    def test_ships_of_a_shorter_period_are_kept_out(self):
        for move, told in (((4, 2, 0), "--period 4,2,0 --exact yes --live 0:1-"), ((6, -3, 0), "--period 6,-3,0 --exact yes --live 0:1-"), ((4, 1, 2), "--period 4,1,2 --live 0:1-")):
            err = self.posed("spaceship", 4, 4, *move)[1]
            self.assertEqual(err.split("\n")[0], f"options: {told}")

    def test_predecessor(self):
        path = scratch(self, "p.rle", "x = 2, y = 1, rule = B36/S23\nbo!\n")
        out, err = self.posed("predecessor", path, "--margin", 1)
        free = "* * * *\n* * * *\n* * * *\n"
        self.assertEqual(out, "#! --rule B36/S23\n" + free + "\n0 0 0 0\n0 0 1 0\n0 0 0 0\n")
        note = "note: generations before it that reach outside of the grid are left out; `orphan` asks for any\n"
        self.assertEqual(err, "options: --rule B36/S23\n" + note + self.ways(2))

    def test_orphan_asks_for_any_generation_before(self):
        path = scratch(self, "p.rle", "x = 2, y = 1, rule = B36/S23\nbo!\n")
        out, err = self.posed("orphan", path)
        free, ring = "* * * *\n* * * *\n* * * *\n", "*' *' *' *'\n"
        self.assertEqual(out, "#! --rule B36/S23 --edge open\n" + free + "\n" + ring + "*' 0 1 *'\n" + ring)
        self.assertEqual(err, "options: --rule B36/S23 --edge open\n" + self.ways(2))
        out, err = self.posed("orphan", path, "--margin", 1)
        self.assertEqual(out.split("\n")[7:10], ["*' *' *' *' *' *'", "*' 0 0 0 0 *'", "*' 0 0 1 0 *'"])

    def test_glide(self):
        out, err = self.posed("glide", 2, 2, 2, -1, "--margin", 0)
        free = "* * *\n* * *\n"
        self.assertEqual(out, f"#! --live 0:1-\n0 r0c0 r0c1\n0 r1c0 r1c1\n\n{free}\nr1c0 r1c1 0\nr0c0 r0c1 0\n")
        self.assertIn("note: it is there again 4 generations later, moved by -2,0\n", err)

    def test_copies(self):
        out, _ = self.posed("copies", 2, 1, 1, "-1,0", "1,1")
        self.assertEqual(out, "#! --live 0:1-\n0 r0c0 r0c1 0\n0 0 0 0\n\nr0c0 r0c1 0 0\n0 0 r0c0 r0c1\n")

    def test_rotor(self):
        out, err = self.posed("rotor", 3, 2, 2, 1, 2, "--margin", 0)
        rows = "r0c0 * r0c2\nr1c0 * r1c2\n"
        self.assertEqual(out, "#! --period 2 --differ 0,1\n" + "\n".join([rows] * 3))
        self.assertIn("note: the cells that change lie at columns 1 to 1, rows 0 to 1\n", err)
        self.assertEqual(self.posed("rotor", 1, 1, 2, 1, 1)[0].split("\n\n")[1], "0 0 0\n0 * 0\n0 0 0")
        self.assertEqual(ran("tools/pose.py", "rotor", "3", "3", "2", "4", "1")[0], 2)

    def test_eater(self):
        picture = scratch(self, "p.rle", "x = 1, y = 1\no!\n")
        out, err = self.posed("eater", 1, 1, 2, picture, "-2,0", "--margin", 0)
        self.assertEqual(out, "#! --live 2:1-\n1 0 r0c0\n\n* * *\n\n0 0 r0c0\n\n0 0 r0c0\n")
        self.assertIn("note: all happens in the grid of 3 by 1; --margin 1 leaves more room\n", err)
        self.assertEqual(self.posed("eater", 1, 1, 1, picture, "0,1", "--margin", 0)[0], "#! --live 1:1-\nr0c0\n1\n\nr0c0\n0\n\nr0c0\n0\n")
        self.assertEqual(ran("tools/pose.py", "eater", "2", "2", "3", picture, "1,1")[1:], ("", "pose.py: the picture lies on the box\n"))

    def test_torus(self):
        out, err = self.posed("torus", 2, 1, 2)
        ring = lambda t, mark: f"r0c1t{t}{mark} r0c0t{t}{mark} r0c1t{t}{mark} r0c0t{t}{mark}\n"
        generation = lambda t, mark: ring(t, mark) + f"r0c1t{t}{mark} r0c0t{t} r0c1t{t} r0c0t{t}{mark}\n" + ring(t, mark)
        later = "\n".join(generation(t, "'") for t in (1, 2))
        self.assertEqual(out, "#! --edge open --period 2 --differ 0,1\n" + generation(0, "") + "\n" + later)
        self.assertTrue(err.startswith("options: --edge open --period 2 --differ 0,1\n"))

    def test_several_generations_before(self):
        out, _ = self.posed("predecessor", scratch(self, "p.rle", "x = 2, y = 1\nbo!\n"), "--back", 2)
        self.assertEqual(out, "* *\n\n* *\n\n0 1\n")

    def test_into_a_file(self):
        path = scratch(self, "q.lls", "as it was")
        self.assertEqual(ran("tools/pose.py", "still", "65", "3", "-o", path)[:2], (2, ""))
        with open(path, encoding="ascii") as file:
            self.assertEqual(file.read(), "as it was")
        self.assertEqual(self.posed("still", 1, 1, "-o", path)[0], "")
        with open(path, encoding="ascii") as file:
            self.assertEqual(file.read(), "#! --period 1 --live 0:1-\n*\n\n*\n")
        self.assertEqual(ran("tools/pose.py", "still", "1", "1", "-o", "/nowhere/q")[0], 2)

    def test_refusals(self):
        rows = ["glide 3 3 2 0", "copies 2 2 1 1,1", "copies 2 2 1 0,0 1,1", "torus 2 2 0", "predecessor p --back 0", "still 0 3", "still 65 3", "still 3", "oscillator 5 5 1", "oscillator 5 5 64", "oscillator 64 64 2", "spaceship 3 3 4 0 0"]
        for words in rows + ["spaceship 3 3 0 1 0", "predecessor no-such-file", "orphan no-such-file", "still 3 3 --margin -1", "glider", ""]:
            status, out, err = ran("tools/pose.py", *words.split())
            self.assertEqual((status, out), (2, ""), words)
            self.assertNotEqual(err, "")
            self.assertNotIn("Traceback", err)

    def test_limits_themselves_are_within(self):
        for words in ("still 64 64", "oscillator 1 1 63 --margin 0", "spaceship 63 1 1 1 0 --margin 0"):
            self.posed(*words.split())


class Documents(unittest.TestCase):
    def faults(self, document):
        folder = tempfile.TemporaryDirectory()
        self.addCleanup(folder.cleanup)
        return documents.faults_of(document, folder.name)

    def test_right_documents(self):
        text = "    $ echo a\n    a\n    $ echo; echo b > c; cat c\n\n    b\n\n```\n$ cat d\ncat: d: No such file or directory\n$ echo $?\n1\n```\n"
        self.assertEqual(self.faults(text), (4, []))

    def test_wrong_documents(self):
        rows = ["    $ echo a\n    b\n", "    $ echo a\n", "    $ echo\n    b\n", "    $ echo a\n    a\n    b\n", "    $ curl a\n"]
        for text in rows + ["    $ cat no-such-file 2> e\n    $ echo $?\n    0\n"]:
            count, faults = self.faults(text)
            self.assertEqual(len(faults), 1, text)
            self.assertGreater(count, 0)

    def test_text_outside_of_blocks_is_no_command(self):
        self.assertEqual(self.faults("$ echo a\n\n    echo b\n"), (0, []))


class Wrapper(unittest.TestCase):
    def test_help_of_a_command(self):
        for command in commands_of_usage():
            status, out, err = ran("./lls", "--help", command)
            self.assertEqual((status, err), (0, ""))
            self.assertTrue(out.startswith(f"    lls {command} "))
            self.assertEqual(len(re.findall(r"^    lls ", out, re.MULTILINE)), 1)
            self.assertNotIn("Exit status", out)

    def test_help_of_no_command(self):
        self.assertEqual(ran("./lls", "--help", "fly"), (2, "", "lls: no command 'fly'; ./lls --help names them\n"))

    def test_version_in_a_repository_and_outside(self):
        self.assertRegex(ran("./lls", "--version")[1].split("\n")[-2], r"^(commit [0-9a-f]{40}(, with changes)?|no commit)$")
        with open(f"{TOP}/lls", encoding="utf-8") as file:
            copy = scratch(self, "lls", file.read())
        self.assertEqual(ran("bash", copy, "--version")[1].split("\n")[-2], "no commit")

    def test_a_link_finds_the_repository(self):
        link = os.path.join(os.path.dirname(scratch(self, "x", "")), "lls")
        os.symlink(f"{TOP}/lls", link)
        self.assertEqual(ran(link, "--help", folder="/"), ran("./lls", "--help"))


class Building(unittest.TestCase):
    """The wrapper over another `rt`, in a small repository: what it says, and whose status it ends with."""

    def setUp(self):
        with open(f"{TOP}/lls", encoding="utf-8") as file:
            self.wrapper = scratch(self, "lls", file.read())
        self.top = os.path.dirname(self.wrapper)
        for folder in ("crates/low/src", "crates/mid/src", "crates/lls/out", "bin", "tools"):
            os.makedirs(f"{self.top}/{folder}")
        shutil.copy(f"{TOP}/tools/build.py", f"{self.top}/tools")
        self.write("crates.txt", "# crates\nlow:\nmid: low kit_crate\nother: low\nlls: mid\n")
        self.write("HANDLES", "none\n")
        self.program = f"{self.top}/crates/lls/out/lls"

    def write(self, name, text):
        path = f"{self.top}/{name}"
        with open(path, "w", encoding="utf-8") as file:
            file.write(text)
        os.chmod(path, 0o755)
        return path

    def lls(self, rt, *words):
        self.write("bin/rt", f"#!/bin/bash\n{rt}\n")
        script = 'PATH=$1:$PATH; shift; exec bash "$@"'
        return ran("bash", "-c", script, "bash", f"{self.top}/bin", self.wrapper, *words, folder=self.top)

    # Proves each library in a copy of the sources, over those below it, and at last makes the program in its place.
    MAKES = """
    set -e
    if [ "$1" = lib ]; then
        [ "$PWD" != "$(dirname "$0")/../crates/${PWD##*/}" ] && [ -d src ]
        [ "${PWD##*/}" = low ] || [ -e ../low/out/rlib/stamp ]
        mkdir -p out/rlib && echo sum > out/rlib/stamp
    else
        [ -e ../low/out/rlib/stamp ] && [ -e ../mid/out/rlib/stamp ]
        [ "$*" = 'run -- rule B3/S23' ] && printf '#!/bin/bash\\necho new "$@"\\nexit 10\\n' > out/lls; chmod +x out/lls
    fi"""
    # The same of libraries that were built before.
    TAKES = MAKES.replace("mkdir -p out/rlib && echo sum > out/rlib/stamp", "[ -e out/rlib/stamp ]")

    def test_says_the_crates_and_runs_what_was_made(self):
        status, out, err = self.lls(self.MAKES, "search", "a b")
        self.assertEqual((status, out), (10, "new search a b\n"))
        crates = [line for line in err.split("\n") if line.startswith("lls: proved ")]
        self.assertEqual(crates, ["lls: proved low; libraries left: 1", "lls: proved mid; libraries left: 0"])
        self.assertIn("--unproved", err)
        self.assertEqual(os.listdir(f"{self.top}/crates/lls"), ["out"])

    def test_takes_the_libraries_that_were_built_before(self):
        self.lls(self.MAKES, "search")
        os.remove(self.program)
        self.assertEqual(self.lls(self.TAKES, "search")[:2], (10, "new search\n"))

    def test_a_failed_build_runs_nothing(self):
        self.write("crates/lls/out/lls", "#!/bin/bash\necho old\n")
        self.write("crates/lls/main.rt", "newer")
        os.utime(self.program, (1, 1))
        status, out, err = self.lls("echo 'not proved'; exit 1", "rule", "B3/S23")
        self.assertEqual((status, out), (1, ""))
        self.assertIn("lls: low isn't proved\nlls: the program wasn't built", err)
        with open(f"{self.top}/crates/lls/build.log", encoding="utf-8") as file:
            self.assertEqual(file.read(), "== low\nnot proved\n")

    def test_a_program_that_is_there_is_run_at_once(self):
        path = self.write("crates/lls/out/lls", "#!/bin/bash\necho there\nexit 3\n")
        os.utime(path, (2**31, 2**31))
        self.assertEqual(self.lls("echo built >&2", "judge"), (3, "there\n", ""))

    def test_as_built(self):
        self.assertEqual(self.lls("exit 9", "--as-built", "rule", "B3/S23"), (1, "", "lls: --as-built: no program is built\n"))
        path = self.write("crates/lls/out/lls", "#!/bin/bash\necho there \"$@\"\n")
        self.write("crates/lls/main.rt", "newer")
        os.utime(path, (1, 1))
        self.assertEqual(self.lls("echo built >&2", "--quiet", "--as-built", "judge"), (0, "there judge\n", ""))

    def test_a_spent_budget(self):
        path = self.write("crates/lls/out/lls", "#!/bin/bash\necho undecided\nexit 30\n")
        os.utime(path, (2**31, 2**31))
        status, out, err = self.lls("exit 9", "search", "q.lls", "p")
        self.assertEqual((status, out), (30, "undecided\n"))
        self.assertIn("lls: the budget is spent: --budget", err)
        self.assertEqual(self.lls("exit 9", "--quiet", "search", "q.lls", "p"), (30, "undecided\n", ""))
        self.assertEqual(self.lls("exit 9", "make", "1", "8", "f", "p"), (30, "undecided\n", ""))

    def test_trimmed_refusal(self):
        path = self.write("crates/lls/out/lls", "#!/bin/bash\nexit 3\n")
        os.utime(path, (2**31, 2**31))
        self.assertEqual(self.lls("exit 9", "--trimmed", "judge", "a", "b"), (2, "", "lls: --trimmed goes before search, sat, least or most\n"))

    def test_posed(self):
        path = self.write("crates/lls/out/lls", "#!/bin/bash\nprintf '%s\\n' \"$@\"\nexit 3\n")
        os.utime(path, (2**31, 2**31))
        self.write("q.lls", "# a ship\n#! --period 4,1,1 --live=0:1- --rule B2-a/S12\n* *\n")
        self.write("form.lls", "#! --formula 1 --edge open\n* *\n")
        self.write("loose.lls", "#! --low B3/S2 --high=B3/S23\n* *\n")
        self.write("returns.lls", "#! --edge open --symmetry D4+\r\n* *\r\n")
        self.write("kinds.lls", "#! --edge open --images one\n* *\n")
        self.write("between.lls", "#! --low B3/S2 --images one --high=B3/S23\n* *\n")
        taken = ["--period", "4,1,1", "--live", "0:1-", "--rule", "B2-a/S12"]
        for words, ran_with in [
            (["search", "q.lls", "p"], ["search", "q.lls", "p", *taken]),
            (["check", "--period", "4,1,1", "q.lls", "p"], ["check", "--period", "4,1,1", "q.lls", "p", *taken[2:]]),
            (["search", "--budget", "9", "q.lls", "p", "--live=0:1-"], ["search", "--budget", "9", "q.lls", "p", "--live=0:1-", *taken[:2], *taken[4:]]),
            (["check", "form.lls", "p"], ["check", "form.lls", "p", "--formula", "1", "--edge", "open"]),
            (["check", "returns.lls", "p"], ["check", "returns.lls", "p", "--edge", "open", "--symmetry", "D4+"]),
            (["judge", "form.lls", "p"], ["judge", "form.lls", "p", "--edge", "open"]),
            (["least", "kinds.lls", "p"], ["least", "kinds.lls", "p", "--edge", "open", "--images", "one"]),
            (["judge", "kinds.lls", "p"], ["judge", "kinds.lls", "p", "--edge", "open"]),
            (["open", "between.lls", "p"], ["open", "between.lls", "p", "--low", "B3/S2", "--high", "B3/S23"]),
            (["opencheck", "between.lls", "p"], ["opencheck", "between.lls", "p", "--low", "B3/S2", "--high", "B3/S23"]),
            (["open", "loose.lls", "p"], ["open", "loose.lls", "p", "--low", "B3/S2", "--high", "B3/S23"]),
        ]:
            said = f"lls: {' '.join(ran_with)}\n"
            self.assertEqual(self.lls("exit 9", "--posed", *words), (3, "\n".join(ran_with) + "\n", said), words)

    def test_posed_by_the_file_alone(self):
        path = self.write("crates/lls/out/lls", "#!/bin/bash\nprintf '%s\\n' \"$@\"\n")
        os.utime(path, (2**31, 2**31))
        self.write("q.lls", "# a ship\n#! --period 4,1,1\n* *\n")
        self.write("other.lls", "#!/bin/sh\n* *\n")
        self.write("odd.lls", "#! --budget 4\n* *\n")
        why = "lls: the file's line '#!' (--bare leaves it out): odd.lls: '--budget' on its line '#!' is no option of a question\n"
        self.assertEqual(self.lls("exit 9", "search", "odd.lls", "p"), (2, "", why))
        line = "lls: with the options that the file's line '#!' has (--bare leaves them out): search q.lls p --period 4,1,1\n"
        for words, ran_with, said in [
            ("search q.lls p", "search q.lls p --period 4,1,1", line),
            ("--quiet search q.lls p", "search q.lls p --period 4,1,1", ""),
            ("--bare search q.lls p", "search q.lls p", ""),
            ("search q.lls p --budget 9", "search q.lls p --budget 9 --period 4,1,1", line.replace("q.lls p", "q.lls p --budget 9")),
            ("search q.lls p --edge=open", "search q.lls p --edge=open", ""),
            ("search q.lls p --images=one", "search q.lls p --images=one --period 4,1,1", line.replace("q.lls p", "q.lls p --images=one")),
            ("search q.lls p --rule B3/S23", "search q.lls p --rule B3/S23", ""),
            ("search other.lls p", "search other.lls p", ""),
            ("search none.lls p", "search none.lls p", ""),
            ("lrat q.lls p", "lrat q.lls p", ""),
            ("--bare search odd.lls p", "search odd.lls p", ""),
        ]:
            self.assertEqual(self.lls("exit 9", *words.split()), (0, "\n".join(ran_with.split()) + "\n", said), words)

    def test_rules_by_name(self):
        for name in ("ending", "named", "pictures", "rle", "words"):
            shutil.copy(f"{TOP}/tools/{name}.py", f"{self.top}/tools")
        path = self.write("crates/lls/out/lls", "#!/bin/bash\nprintf '%s\\n' \"$@\"\n")
        os.utime(path, (2**31, 2**31))
        for words, ran_with, said in [
            (["rule", "HighLife"], ["rule", "B36/S23"], "lls: HighLife is B36/S23\n"),
            (["cnf", "q", "--rule", "tlife"], ["cnf", "q", "--rule", "B3/S2-i34q"], "lls: tlife is B3/S2-i34q\n"),
            (["open", "q", "p", "--low=seeds", "--high", "b3/s23"], ["open", "q", "p", "--low=B2/S", "--high", "b3/s23"], "lls: seeds is B2/S\n"),
            (["--quiet", "rule", "day & night"], ["rule", "B3678/S34678"], ""),
            (["rule", "23/3"], ["rule", "23/3"], ""),
            (["open", "q", "p", "--any"], ["open", "q", "p", "--low=B/S", "--high=B12345678/S012345678"], ""),
            (["open", "q", "p"], ["open", "q", "p"], "lls: note: without --low and --high the rule is Life's alone; --any leaves it open\n"),
            (["--quiet", "open", "q", "p"], ["open", "q", "p"], ""),
            (["search", "q", "p", "--turns", "5"], ["search", "q", "p", "--turns", "5"], "lls: note: --turns says whose turn it is in a crew, and without --crew there is none\n"),
            (["search", "q", "p", "--turns=5", "--crew=2"], ["search", "q", "p", "--turns=5", "--crew=2"], ""),
            (
                ["search", "q", "p", "--manner=both", "--crew", "2"],
                ["search", "q", "p", "--manner=both", "--crew", "2"],
                "lls: note: --manner does nothing beside --crew: a crew has searchers of both kinds\n",
            ),
            (
                ["search", "q", "p", "--crew=2", "--first", "7"],
                ["search", "q", "p", "--crew=2", "--first", "7"],
                "lls: note: --first does nothing beside --crew: the searchers of a crew begin each in its own way\n",
            ),
            (["search", "q", "p", "--first=7"], ["search", "q", "p", "--first=7"], ""),
            (["rule", "nothing"], ["rule", "nothing"], ""),
            (["check", "life", "maze", "--edge", "open"], ["check", "life", "maze", "--edge", "open"], ""),
        ]:
            self.assertEqual(self.lls("exit 9", *words), (0, "\n".join(ran_with) + "\n", said), words)

    def test_outputs_without_a_place(self):
        path = self.write("crates/lls/out/lls", "#!/bin/bash\n")
        os.utime(path, (2**31, 2**31))
        for name, why in (("none/p", "can't be made: no folder 'none'"), ("crates", "is a folder"), ("p", None)):
            said = f"lls: '{name}' {why}\n" if why else ""
            self.assertEqual(self.lls("exit 9", "search", "q.lls", name), (0, "", said))
            self.assertEqual(self.lls("exit 9", "--quiet", "search", "q.lls", name), (0, "", ""))
            self.assertEqual(self.lls("exit 9", "check", "q.lls", name), (0, "", ""))

    def test_posed_refusals(self):
        path = self.write("crates/lls/out/lls", "#!/bin/bash\necho ran\n")
        os.utime(path, (2**31, 2**31))
        self.write("q.lls", "#! --period 4,1,1\n* *\n")
        self.write("plain.lls", "# --period 4\n* *\n")
        self.write("odd.lls", "#! --budget 4\n* *\n")
        self.write("short.lls", "#! --rule\n* *\n")
        for words, why in [
            ("search q.lls p --period 3", "the file says '--period 4,1,1', and the words say '--period 3'"),
            ("check q.lls p --period=4", "the file says '--period 4,1,1', and the words say '--period 4'"),
            ("search plain.lls p", "plain.lls has no line '#! OPTIONS'"),
            ("search odd.lls p", "odd.lls: '--budget' on its line '#!' is no option of a question"),
            ("search short.lls p", "short.lls: --rule on its line '#!' has no value"),
            ("search nowhere.lls p", "no file 'nowhere.lls' to take options from"),
            ("search", "a command and a search file have to follow"),
        ]:
            self.assertEqual(self.lls("exit 9", "--posed", *words.split()), (2, "", f"lls: --posed: {why}\n"), words)

    def test_unproved(self):
        rt = 'printf "%s\\n" "$@"; echo "checked: ended status=20" >&2; echo "lls: words: Fault" >&2; echo "run=ended status=20 runners=1 proved=no" >&2; exit 20'
        words = ["search", "q.lls", "--rule", "B3/S23", "--edge=open", "/p"]
        status, out, err = self.lls(rt, "--unproved", *words)
        self.assertEqual(status, 20)
        self.assertEqual(out.split("\n")[-7:-1], ["search", f"{self.top}/q.lls", "--rule", "B3/S23", "--edge=open", "/p"])
        self.assertEqual(err, "lls: compiling without proofs; nothing is proved of this answer\nlls: words: Fault\n")
        self.assertEqual(self.lls(rt, "--unproved", "rule", "B3/S23")[1].split("\n")[-3:-1], ["rule", "B3/S23"])
        made = ["make", "0", "2", f"{self.top}/f", "/p"]
        self.assertEqual(self.lls(rt, "--unproved", "make", "0", "2", "f", "/p")[1].split("\n")[-6:-1], made)

    def test_unproved_without_an_answer(self):
        status, out, err = self.lls("echo 'src/main.rt:1:1: error' >&2; echo 'run=none proved=no' >&2; exit 0", "--unproved", "rule")
        self.assertEqual((status, out), (1, ""))
        self.assertIn("error", err)


class Completion(unittest.TestCase):
    def replies(self, *words):
        script = '. tools/lls.bash; COMP_WORDS=("$@"); COMP_CWORD=$(($# - 1)); _lls; printf "%s\\n" "${COMPREPLY[@]}"'
        return ran("bash", "-c", script, "bash", "lls", *words)[1].split()

    def test_words(self):
        self.assertEqual(self.replies("ju"), ["judge"])
        self.assertEqual(self.replies("--help", "ju"), ["judge"])
        self.assertEqual(self.replies("--unproved", "ju"), ["judge"])
        self.assertEqual(self.replies("--posed", "ju"), ["judge"])
        self.assertEqual(self.replies("--quiet", "ju"), ["judge"])
        self.assertEqual(self.replies("--quiet", "--posed", "ju"), ["judge"])
        self.assertEqual(self.replies("--quiet", "--"), ["--as-built", "--bare", "--from", "--posed", "--race", "--seconds", "--trimmed", "--unproved"])
        self.assertEqual(self.replies("--trimmed", "--posed", "ju"), ["judge"])
        self.assertEqual(self.replies("--unproved", "--bare", "ju"), ["judge"])
        self.assertEqual(self.replies("--as-built", "--race", "sear"), ["search"])
        self.assertEqual(self.replies("--seconds", "60", "--from", "q.proof", "sear"), ["search"])
        self.assertEqual(self.replies("help", "ju"), ["judge"])
        self.assertEqual(self.replies("check", "a.lls", "--edge", "o"), ["open"])
        self.assertEqual(self.replies("check", "a.lls", "--edge", "="), ["closed", "open"])
        self.assertEqual(self.replies("check", "a.lls", "--symmetry", "D2"), ["D2-", "D2\\|", "D2\\\\", "D2/"])
        self.assertEqual(self.replies("check", "exa"), [])
        self.assertEqual(self.replies("op"), ["open", "opencheck"])
        self.assertEqual(self.replies("tr"), ["trim"])
        self.assertEqual(self.replies("opencheck", "a.lls", "--h"), ["--high"])
        self.assertEqual(self.replies("opencheck", "a.lls", "--b"), ["--but"])
        self.assertEqual(self.replies("search", "a.lls", "--cr"), ["--crew"])
        self.assertEqual(self.replies("least", "a.lls", "--cr"), [])
        self.assertEqual(self.replies("open", "a.lls", "--low", "B36"), ["B36/S23", "B368/S245"])

    def test_options_are_those_of_the_usage(self):
        for command in commands_of_usage():
            self.assertEqual(set(self.replies(command, "--")), options_of(command), command)


class ManPage(unittest.TestCase):
    def test_names_each_command_and_option(self):
        with open(f"{TOP}/docs/lls.1", encoding="utf-8") as file:
            page = file.read().replace("\\-", "-")
        for command in commands_of_usage():
            self.assertIn(f".B lls {command}\n", page)
            self.assertIn(f".TP\n.B {command}\n", page)
            for option in options_of(command):
                self.assertRegex(page, rf"\.TP\n\.\w+ {option}\b")


def usage():
    with open(f"{TOP}/docs/usage.md", encoding="utf-8") as file:
        return file.read()


def commands_of_usage():
    return re.findall(r"^    lls ([a-z]+) ", usage(), re.MULTILINE)


def options_of(command):
    """The options in the head of a command's part: its first line, and lines that go on with an option."""
    head = re.search(rf"^    lls {command} .*\n(?: +\[--.*\n)*", usage(), re.MULTILINE).group(0)
    return set(re.findall(r"--[a-z]+", head))


class Pattern(unittest.TestCase):
    """pattern.py: the pattern of a solver's model, and nothing where there is none."""

    def of(self, model, search="* *\n\n* 1\n\n0 *\n"):
        return ran("tools/pattern.py", scratch(self, "q.lls", search), text=model)

    def test_values_are_cells_by_generation_row_and_column(self):
        self.assertEqual(self.of("c a model\ns SATISFIABLE\nv 1 -2 -3\nv 4 -5 6 7 0\n"), (0, "1 0\n\n0 1\n\n0 1\n", ""))

    def test_answers_without_a_model_make_no_pattern(self):
        for model, why in [
            ("s UNSATISFIABLE\n", "the solver says 'UNSATISFIABLE', so there is no model"),
            ("s UNKNOWN\n", "the solver says 'UNKNOWN', so there is no model"),
            ("", "no line 's SATISFIABLE': this is no solver's answer"),
            ("no pattern\n\x00\xff garbage\n", "no line 's SATISFIABLE': this is no solver's answer"),
            ("v 1 2 3 4 5 6 0\n", "no line 's SATISFIABLE': this is no solver's answer"),
            ("s SATISFIABLE\n", "the model gives no value to variable 1, a cell: was it made of another formula?"),
            ("s SATISFIABLE\nv 1 2 3 4 5 0\n", "the model gives no value to variable 6, a cell: was it made of another formula?"),
            ("s SATISFIABLE\nv 1 two 0\n", "a word on a line 'v' is no number"),
        ]:
            self.assertEqual(self.of(model), (1, "", f"pattern.py: {why}\n"), model)

    def test_files_without_cells(self):
        model = "s SATISFIABLE\nv 1 0\n"
        self.assertEqual(self.of(model, search="# nothing\n")[::2], (1, "pattern.py: the search file has no rows of cells\n"))
        self.assertEqual(self.of(model, search="* *\n*\n")[::2], (1, "pattern.py: the search file's generations or rows differ in size\n"))
        self.assertEqual(ran("tools/pattern.py", "nowhere.lls")[::2], (1, "pattern.py: nowhere.lls: No such file or directory\n"))

    def test_usage(self):
        self.assertEqual(ran("tools/pattern.py")[:2], (2, ""))
        self.assertEqual(ran("tools/pattern.py", "--help")[::2], (0, ""))


class Modules(unittest.TestCase):
    """What a module took is the time since the file before came, but for the first of a check."""

    def test_of_two_checks_the_last(self):
        earlier = [(10, "a"), (12, "b")]
        last = [(3000, "c"), (3004, "d"), (3005, "e"), (3007, "d")]
        self.assertEqual(modules.spent(reversed(earlier + last)), {"d": 6, "e": 1})


class Slips(unittest.TestCase):
    """Whatever words and files a script gets, it says a sentence and ends with a status that isn't 0: no traceback."""

    SCRIPTS = "costs decided formula lemmas made modules pattern place pose problems refute show solutions"

    def test_words_and_files(self):
        binary = scratch(self, "binary", "")
        with open(binary, "wb") as file:
            file.write(b"\x00\xff\xfe\x80 binary\n")
        missing = f"{binary}.no"
        for script in self.SCRIPTS.split():
            for words in ([], [missing], [binary], [binary, binary], [binary, "3", "23", "closed"], ["a", "b", "c", "d", "e", "f"]):
                status, _, err = ran(f"tools/{script}.py", *words)
                self.assertNotIn("Traceback", err, (script, words))
                if status != 0:
                    self.assertNotEqual(err.strip(), "", (script, words))
                elif script not in ("show", "solutions"):
                    self.fail(f"{script} {words} ends with 0")

    def test_help(self):
        for script in (self.SCRIPTS + " documents fits moves named refused words").split():
            status, out, err = ran(f"tools/{script}.py", "--help")
            self.assertEqual((status, err), (0, ""), script)
            self.assertIn(f"{script}.py", out)

    def test_a_reader_that_goes_away(self):
        for words in ("tools/pose.py still 64 64", "tools/made.py 1 64", "tools/show.py examples/pulsar.lls"):
            _, _, err = ran("bash", "-c", f"{words} | :")
            self.assertNotIn("Traceback", err, words)

    def test_scripts_can_be_run(self):
        for name in (name for name in os.listdir(f"{TOP}/tools") if name.endswith(".py")):
            path = f"{TOP}/tools/{name}"
            with open(path, encoding="utf-8") as file:
                is_script = file.readline().startswith("#!")
            self.assertEqual(os.access(path, os.X_OK), is_script, name)


class About(unittest.TestCase):
    """show.py --about: what is seen of a history, in words."""

    def test_glider(self):
        wanted = [f"generation {t}: 5 live in a box of 3 by 3 at column {x}, row {y}" for t, (x, y) in enumerate([(0, 0), (0, 1), (0, 1), (1, 1), (1, 1)])]
        self.assertEqual(ran("tools/show.py", "--about", "examples/glider.pattern"), (0, "\n".join(wanted) + "\ngeneration 4 is generation 0 again, moved by 1,1\n", ""))

    def test_others(self):
        for text, wanted in [
            ("1 1\n1 1\n\n1 1\n1 1\n", ["4 live in a box of 2 by 2 at column 0, row 0"] * 2 + ["generation 1 is generation 0 again"]),
            ("0 0\n\n0 0\n", ["0 live", "0 live", "generation 1 is generation 0 again"]),
            ("0 1\n\n1 1\n", ["1 live in a box of 1 by 1 at column 1, row 0", "2 live in a box of 2 by 1 at column 0, row 0", "no later generation is generation 0 again"]),
            ("0 1\n", ["1 live in a box of 1 by 1 at column 1, row 0"]),
        ]:
            counted = [line if line.startswith(("generation", "no later")) else f"generation {t}: {line}" for t, line in enumerate(wanted)]
            self.assertEqual(ran("tools/show.py", "--about", text=text), (0, "\n".join(counted) + "\n", ""), text)
        self.assertEqual(ran("tools/show.py", "--about", text="* 0\n")[:2], (1, ""))


class Edits(unittest.TestCase):
    """What the gate reads of `rt ci`, in the kit's words."""

    SHOWS = "rt: must-fail a/b.edit: refused, as it must be: note: src/a.rt:1:2: it is not proved that what the function ensures holds"
    NAMES = "rt: must-fail a/c.edit: refused, as it must be (only because a proof file names what the edit took away, so this says little)"
    BAD = "rt: must-fail a/d.edit: BAD EDIT: an 'old:' text is in src/a.rt 0 times, and not once"

    def test_edits_that_show_something(self):
        self.assertEqual(ran(".ci/edits", text=f"{self.SHOWS}\nrt: ok\n3 passed, 0 failed\n"), (0, "", ""))

    def test_edits_that_show_nothing(self):
        status, _, said = ran(".ci/edits", text=f"{self.SHOWS}\n{self.NAMES}\n{self.BAD}\n3 passed, 0 failed\n")
        self.assertEqual((status, said.splitlines()), (1, [f"edits: {self.NAMES}", f"edits: {self.BAD}"]))


if __name__ == "__main__":
    os.environ["COLUMNS"] = "80"
    sys.exit(not unittest.main(exit=False, verbosity=0).result.wasSuccessful())
