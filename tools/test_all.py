#!/usr/bin/env python3
"""Tests of all.py over a program that finds the first pattern of a file that isn't listed.

    test_all.py
"""
import os
import tempfile
import unittest

from test_tools import TOP, ran

# The file that is searched has a status for the end in a comment, and then in others a pattern a line. What is found is printed with a later generation.
PROGRAM = """#!/bin/bash
[[ "$1 $4 $*" = 'search --live '*' --but '* ]] || exit 2
list=${!#}
printed='%s\\n\\n1 1\\n'
[[ "$*" != *' --as rle '* ]] || printed='x = 2, y = 1\\n%s\\nx = 2, y = 1\\n2o!\\n'
{
    read -r _ status
    while read -r hash pattern; do
        [ "$hash" = '#' ] || break
        grep -qx "$pattern" "$list" || { printf "$printed" "$pattern"; exit 10; }
    done
} <"$2"
[ "$status" -ne 3 ] || { echo 'lls: content: Empty' >&2; exit 3; }
[ "$status" -eq 10 ] || echo "of $list" >"$3"
exit "$status"
"""


class Lists(unittest.TestCase):
    def setUp(self):
        folder = tempfile.TemporaryDirectory()
        self.addCleanup(folder.cleanup)
        self.folder = folder.name
        self.write("lls", PROGRAM)

    def write(self, name, text):
        with open(f"{self.folder}/{name}", "w", encoding="utf-8") as file:
            file.write(text)
        os.chmod(f"{self.folder}/{name}", 0o755)

    def read(self, name):
        with open(f"{self.folder}/{name}", encoding="utf-8") as file:
            return file.read()

    def listed(self, asked, *words, begun=None, form=()):
        """What a listing of the question comes to, and the list and the proof that it leaves."""
        for name in ("list", "proof"):
            if os.path.exists(f"{self.folder}/{name}"):
                os.remove(f"{self.folder}/{name}")
        self.write("q.lls", "".join(f"# {line}\n" for line in asked.splitlines()) + "* *\n")
        if begun is not None:
            self.write("list", begun)
        done = ran(f"{TOP}/tools/all.py", "--lls", f"{self.folder}/lls", *words, "q.lls", "list", "proof", "--live", "0:1-", *form, folder=self.folder)
        return done, {name: self.read(name) for name in os.listdir(self.folder) if name not in ("lls", "q.lls")}

    def test_ends(self):
        rows = [
            ("20\n0 1\n1 0\n", (10, "all 2\n", ""), {"list": "0 1\n\n1 0\n", "proof": "of list\n"}),
            ("20\n", (20, "no pattern\n", ""), {"list": "", "proof": "of list\n"}),
            ("30\n1 1\n", (30, "at least 1\n", ""), {"list": "1 1\n", "proof": "of list\n"}),
            ("30\n", (30, "at least 0\n", ""), {"list": "", "proof": "of list\n"}),
            ("3\n1 1\n", (3, "", "lls: content: Empty\n"), {"list": "1 1\n"}),
        ]
        for asked, done, left in rows:
            self.assertEqual(self.listed(asked), (done, left), asked)

    def test_not_more_than_so_many(self):
        self.assertEqual(self.listed("20\n0 1\n1 0\n1 1\n", "--most", "2"), ((30, "at least 2\n", ""), {"list": "0 1\n\n1 0\n"}))
        self.assertEqual(self.listed("20\n0 1\n", "--most", "1"), ((30, "at least 1\n", ""), {"list": "0 1\n"}))

    def test_goes_on_with_a_list(self):
        done, left = self.listed("20\n0 1\n1 0\n", begun="# begun\n1 0\n\n\n1 1\n")
        self.assertEqual((done, left["list"]), ((10, "all 3\n", ""), "# begun\n1 0\n\n\n1 1\n\n0 1\n"))

    def test_pictures(self):
        first, second = "x = 2, y = 1\nbo!\n", "x = 2, y = 1\no!\n"
        for begun, left in ((None, first + second), (f"#C begun\n{second}\n", f"#C begun\n{second}{first}")):
            done, files = self.listed("20\nbo!\no!\n", begun=begun, form=("--as", "rle"))
            self.assertEqual((done, files["list"]), ((10, "all 2\n", ""), left))

    def test_words_that_are_no_listing(self):
        for words in (("--but", "list"), ("--but=list",)):
            done = ran(f"{TOP}/tools/all.py", "q.lls", "list", "proof", *words, folder=self.folder)
            self.assertEqual(done, (1, "", "all.py: --but can't stand here\n"))

    def test_each_with_its_images(self):
        rows = [
            ("", ("--images", "one"), "0 1\n\n1 0\n"),
            ("", ("--images=one", "--period", "2,1,0"), "0 1\n"),
            ("", ("--images=one", "--symmetry=C2"), "0 1\n\n1 0\n"),
            ("", ("--images=one", "--symmetry=D4+"), "0 1\n"),
            ("", ("--images", "all"), "0 1\n"),
        ]
        for asked, form, left in rows:
            self.assertEqual(self.listed("20\n0 1\n", form=form)[1]["list"], left, form)

    def test_images_of_pictures(self):
        done, files = self.listed("20\nbo!\n", form=("--as", "rle", "--images", "one"))
        self.assertEqual((done, files["list"]), ((10, "all 2\n", ""), "x = 2, y = 1\nbo!\nx = 2, y = 1\nob!\n"))


if __name__ == "__main__":
    unittest.main()
