#!/usr/bin/env python3
"""Tests of the scripts that bring other solvers' answers to the program: with_solver.py and tighten.py, and of what trimmed.py and turns.py say.

    test_solvers.py

Takes a few seconds and needs neither the proved program nor a solver: both are played by scripts. What is expected was worked out by hand.
"""
import os
import shutil
import subprocess
import sys
import tempfile
import unittest

TOP = os.path.dirname(os.path.dirname(os.path.abspath(__file__)))
FORMULA = "p cnf 2 4\n1 2 0\n1 -2 0\n-1 2 0\n-1 -2 0\n"
PROOF = "1 0\n2 0\n0\n"


def ran(*words, folder=TOP, path=None):
    """Returns the status of a script of this folder and what it prints on its two streams."""
    script = os.path.join(TOP, "tools", words[0])
    around = dict(os.environ, PATH=os.environ["PATH"] if path is None else path)
    done = subprocess.run(
        (sys.executable, script, *words[1:]), capture_output=True, text=True, cwd=folder, env=around, check=False, timeout=60
    )
    return done.returncode, done.stdout, done.stderr


class Scratch(unittest.TestCase):
    def setUp(self):
        folder = tempfile.TemporaryDirectory()
        self.addCleanup(folder.cleanup)
        self.folder = folder.name

    def write(self, name, text, is_script=False):
        path = os.path.join(self.folder, name)
        os.makedirs(os.path.dirname(path), exist_ok=True)
        with open(path, "wb") as file:
            file.write(text if isinstance(text, bytes) else text.encode())
        if is_script:
            os.chmod(path, 0o755)
        return path

    def read(self, name):
        with open(os.path.join(self.folder, name), encoding="utf-8") as file:
            return file.read()


class Trimmed(Scratch):
    """All four clauses of two variables, of which each proof derives the empty clause."""

    ROWS = (
        # The first addition and the deletion go, and the empty clause's hint is renamed.
        ("5 2 0 1 3 0\n6 1 0 1 2 0\n7 d 5 0\n8 0 6 3 4 0\n", "5 1 0 1 2 0\n6 0 5 3 4 0\n", "kept 2 of 3\n"),
        # The hint behind the conflict goes, and with it the addition that it names.
        ("c a comment\n\n5 2 0 1 3 0\n6 1 0 1 2 5 0\n7 0 6 3 4 5 0\n8 2 0 1 3 0\n", "5 1 0 1 2 0\n6 0 5 3 4 0\n", "kept 2 of 3\n"),
        # An id that is given again names the later addition.
        ("5 1 0 1 2 0\n6 d 5 0\n5 -1 0 3 4 0\n6 1 0 1 2 0\n9 0 5 6 0\n", "5 -1 0 3 4 0\n6 1 0 1 2 0\n7 0 5 6 0\n", "kept 3 of 4\n"),
    )

    def trimmed(self, proof, *out):
        self.write("four.cnf", "p cnf 2 4\n1 2 0 1 -2 0 -1 2 0\n-1 -2 0\n")
        self.write("proof", proof)
        return ran("trimmed.py", "four.cnf", "proof", *out, folder=self.folder)

    def test_what_the_empty_clause_rests_on(self):
        for proof, out, kept in self.ROWS:
            self.assertEqual(self.trimmed(proof), (0, out, ""))
            self.write("out", out)
            self.assertEqual(self.trimmed(proof, "out"), (0, kept, ""))
            self.write("out", out.replace("0 5 ", "0 4 "))
            self.assertEqual(self.trimmed(proof, "out")[:2], (1, ""))

    def test_a_needed_addition_by_its_pivot(self):
        self.assertEqual(self.trimmed("5 3 0 0\n6 1 0 5 1 2 0\n7 0 6 3 4 0\n"), (0, "refused: RatStep 1\n", ""))
        # One that isn't needed goes.
        self.assertEqual(self.trimmed("5 3 0 0\n6 1 0 1 2 0\n7 0 6 3 4 0\n"), (0, "5 1 0 1 2 0\n6 0 5 3 4 0\n", ""))


class WithSolver(Scratch):
    """A search file of two cells. The programs' parts are played by scripts: one takes a pattern and proofs that begin with `9`, the other gives
    hints to one proof."""

    LLS = """#!/bin/sh
echo "$*" >> calls
case "$1" in
cnf) cat cnf ;;
judge) [ "$(cat "$3")" = "1 0" ] && echo meets || { echo "broken: Cell 0 0 0"; exit 1; } ;;
check) grep -q "^9 " "$3" && echo accepted || { echo "refused: NoEmpty"; exit 1; } ;;
esac
"""

    HINTS = """#!/bin/sh
cmp -s "$1" cnf && cmp -s "$2" proof && echo "9 0 3 0" > "$3" && echo "kept 1 of 1" || { echo "refused: NotImplied 2"; exit 1; }
"""

    def setUp(self):
        super().setUp()
        self.write("lls", self.LLS, True)
        self.write("lls-hints", self.HINTS, True)
        self.write("cnf", FORMULA)
        self.write("proof", PROOF)
        self.write("q.lls", "* *\n")
        # No other programs are found, so that none of this machine's is run.
        os.mkdir(f"{self.folder}/bin")
        for name in ("cat", "cmp", "grep"):
            os.symlink(shutil.which(name), f"{self.folder}/bin/{name}")

    def solved(self, solver, script=None, *words):
        if script is not None:
            self.write(f"bin/{solver}", f"#!/bin/sh\n{script}\n", True)
        where = ("--lls", "./lls", "--hints", "./lls-hints", f"{self.folder}/bin/{solver}", "q.lls", "out.lrat", *words)
        status, out, err = ran("with_solver.py", *where, folder=self.folder, path=f"{self.folder}/bin")
        return status, out, [line.removeprefix("with_solver.py: ") for line in err.splitlines()]

    def calls(self):
        return [line.split()[0] + line.partition(" q.lls")[2] for line in self.read("calls").splitlines()]

    # Where CaDiCaL is asked for its help, it says its options.
    CADICAL = 'case "$*" in --help) exit 0 ;; esac\n'
    ABSENCE = CADICAL + f"printf '{PROOF}' > \"$4\"\necho 's UNSATISFIABLE'\nexit 20"

    def test_model(self):
        status, out, said = self.solved("cadical", self.CADICAL + "echo 's SATISFIABLE'; echo 'v 1 -2 3 0'; exit 10", "--period", "1")
        self.assertEqual((status, out, said[-1]), (10, "1 0\n", "pattern: judged by `lls judge`"))
        for line, step in zip(said, ("`lls cnf`", "cadical", "`lls judge`")):
            self.assertRegex(line, rf"^{step}: \d+\.\d s$")
        self.assertEqual(self.calls()[0], "cnf --period 1")
        self.assertRegex(self.calls()[1], r"^judge \S+ --period 1$")
        self.assertFalse(os.path.exists(f"{self.folder}/out.lrat"))

    def test_a_wrong_model_is_no_answer(self):
        for model, fault in (
            ("v -1 -2 3 0", "`lls judge` doesn't take the solver's pattern: broken: Cell 0 0 0"),
            ("v 1 0", "the solver's model: the model gives no value to variable 2, a cell: was it made of another formula?"),
        ):
            status, out, said = self.solved("cadical", self.CADICAL + f"echo 's SATISFIABLE'; echo '{model}'; exit 10")
            self.assertEqual((status, out, said[-1]), (1, "", fault))

    def test_absence(self):
        status, out, said = self.solved("cadical", self.ABSENCE, "--live", "0:1-")
        self.assertEqual((status, out), (20, "no pattern\n"))
        self.assertEqual(said[-1], "no pattern: shown by `lls check` of out.lrat")
        self.assertRegex(said[2], r"^`lls-hints`: \d+\.\d s$")
        self.assertRegex(self.calls()[1], r"^check \S+ --live 0:1-$")
        self.assertEqual(self.read("out.lrat"), "9 0 3 0\n")

    def test_kissat(self):
        script = f"[ \"$1 $2\" = '-q --no-binary' ] || exit 3\nprintf '{PROOF}' > \"$4\"\nexit 20"
        self.assertEqual(self.solved("kissat", script)[:2], (20, "no pattern\n"))

    def test_a_time_that_is_over(self):
        os.symlink(shutil.which("sleep"), f"{self.folder}/bin/sleep")
        self.write("bin/kissat", '#!/bin/sh\necho $$ > process\nsleep 50 & echo $! >> process\nwait\n', True)
        where = ("--lls", "./lls", "--seconds", "1", f"{self.folder}/bin/kissat", "q.lls", "out.lrat")
        status, out, _ = ran("with_solver.py", *where, folder=self.folder, path=f"{self.folder}/bin")
        self.assertEqual((status, out), (30, "undecided\n"))
        for process in self.read("process").split():
            path = f"/proc/{process}/stat"
            # What was ended may wait there for whoever began it.
            with open(path, encoding="ascii") if os.path.exists(path) else open(os.devnull, encoding="ascii") as file:
                self.assertIn(file.read().rpartition(")")[2].split()[:1], ([], ["Z"]))

    def test_lrat_is_taken_as_it_is(self):
        script = 'case "$*" in --help) echo "  --lrat=bool"; exit 0 ;; *--lrat*) echo "9 0 1 0" > "$5" ;; esac\nexit 20'
        self.assertEqual(self.solved("cadical", script)[:2], (20, "no pattern\n"))
        self.assertEqual(self.read("out.lrat"), "9 0 1 0\n")

    def test_a_wrong_proof_is_no_answer(self):
        self.write("out.lrat", "what was there")
        status, out, said = self.solved("cadical", self.ABSENCE.replace("1 0\n2 0\n", "2 0\n1 0\n", 1))
        fault = "`lls-hints` doesn't take the solver's proof: refused: NotImplied 2"
        self.assertEqual((status, out, said[-1]), (1, "", fault))
        script = 'case "$*" in --help) echo --lrat; exit 0 ;; esac\necho "14 0 1 0" > "$5"\nexit 20'
        status, out, said = self.solved("cadical", script)
        self.assertEqual((status, out, said[-1]), (1, "", "`lls check` doesn't take the proof: refused: NoEmpty"))
        self.assertEqual(self.read("out.lrat"), "what was there")

    def test_minisat(self):
        script = 'printf "SAT\\n1 -2 3 0\\n" > "$3"; exit 10'
        self.assertEqual(self.solved("minisat", script)[:2], (10, "1 0\n"))
        status, out, said = self.solved("minisat", "exit 20")
        fault = "minisat says that there is no pattern, and writes no proof: nothing is shown"
        self.assertEqual((status, out, said[-1]), (1, "", fault))

    def tightened(self, script, *words):
        self.write("calls", "")
        self.write("bin/minisat", f"#!/bin/sh\n{script}\n", True)
        where = ("--lls", "./lls", f"{self.folder}/bin/minisat", "q.lls", *words)
        return ran("tighten.py", *where, folder=self.folder, path=f"{self.folder}/bin")

    def test_fewer_and_fewer_live_cells(self):
        script = 'case $(grep -c . calls) in 1) echo "SAT 1 2 0" > "$3"; exit 10 ;; 2) echo "SAT 1 -2 0" > "$3"; exit 10 ;; esac\nexit 20'
        status, out, err = self.tightened(script)
        self.assertEqual((status, out, self.calls()), (10, "least 1\n", ["cnf", "cnf --live 0:-1", "cnf --live 0:-0"]))
        self.assertRegex(err, r"^solving \d+\.\d\d s, formulas \d+\.\d\d s\n$")
        self.write("q.lls", "#! --period 3 --live 0:1-\n* *\n")
        self.tightened(script)
        self.assertEqual(self.calls()[1], "cnf --period 3 --live 0:1-,0:-1")
        self.write("q.lls", "* *\n")
        self.tightened(script, "--live", "0:1-")
        self.assertEqual(self.calls(), ["cnf --live 0:1-", "cnf --live 0:1-,0:-1", "cnf --live 0:1-,0:-0"])
        self.assertEqual(self.tightened("exit 20")[:2], (20, "no pattern\n"))
        # A pattern without live cells ends it.
        self.assertEqual(self.tightened('echo "SAT -1 -2 0" > "$3"; exit 10')[:2], (10, "least 0\n"))
        self.assertEqual(self.tightened("exit 0"), (1, "", "tighten.py: the solver ended with 0\n"))

    def test_more_and_more_live_cells(self):
        script = 'case $(grep -c . calls) in 1) echo "SAT -1 2 0" > "$3"; exit 10 ;; esac\nexit 20'
        self.write("q.lls", "* *\n")
        self.write("calls", "")
        self.write("bin/minisat", f"#!/bin/sh\n{script}\n", True)
        words = ("--most", "--lls", "./lls", f"{self.folder}/bin/minisat", "q.lls")
        said = ran("tighten.py", *words, folder=self.folder, path=f"{self.folder}/bin")
        self.assertEqual((said[0], said[1], self.calls()), (10, "most 1\n", ["cnf", "cnf --live 0:2-"]))
        # A pattern of live cells alone ends it.
        self.write("bin/minisat", '#!/bin/sh\necho "SAT 1 2 0" > "$3"; exit 10\n', True)
        said = ran("tighten.py", *words, folder=self.folder, path=f"{self.folder}/bin")
        self.assertEqual(said[:2], (10, "most 2\n"))

    def test_no_answer(self):
        for script in ("echo 's UNKNOWN'; exit 0", "exit 30"):
            status, out, said = self.solved("cadical", self.CADICAL + script)
            self.assertEqual((status, out, said[-1]), (30, "undecided\n", "undecided: cadical ended without an answer"))

    def test_crashes(self):
        for script, how in (("exit 1", "ended with status 1"), ("kill -11 $$", "was ended by signal 11")):
            status, out, said = self.solved("cadical", self.CADICAL + script)
            self.assertEqual((status, out, said[-1]), (1, "", f"cadical {how} and gave no answer"))

    def test_what_isnt_there(self):
        status, out, said = self.solved("cadical")
        self.assertEqual((status, out, said), (1, "", [f"no solver '{self.folder}/bin/cadical' is there"]))
        status, out, said = self.solved("solver", "exit 20")
        fault = "of the solver 'solver' the options aren't known here, only those of cadical, kissat, minisat, picosat"
        self.assertEqual((status, out, said), (1, "", [fault]))
        self.write("lls", "#!/bin/sh\necho 'lls: words: NoWord' >&2\nexit 2\n", True)
        status, out, said = self.solved("cadical", "exit 20")
        self.assertEqual((status, out, said[0]), (1, "", "lls: words: NoWord"))
        self.assertEqual(said[-1], "`lls cnf` made no formula: status 2")
        os.remove(f"{self.folder}/lls")
        status, out, said = self.solved("cadical", "exit 20")
        self.assertEqual((status, out, said[-1]), (1, "", "./lls: No such file or directory"))


class Turns(Scratch):
    """The program's part is played by a script that needs 0, 1000 and 77 clauses for the `--turns` 0 to 2, and 65 alone."""

    LLS = """#!/bin/sh
echo "$*" >> calls
[ "$1 $2 $4 $5" = "search q.lls --period 3" ] || exit 2
case "$*" in *"--turns 0 "*) needed=0 ;; *"--turns 1 "*) needed=1000 ;; *"--turns 2 "*) needed=77 ;; *) needed=65 ;; esac
for budget; do :; done
[ "$budget" -ge "$needed" ] && exit 20
exit 30
"""

    def test_least_budgets(self):
        self.write("lls", self.LLS, True)
        words = ("turns.py", "--lls", "./lls")
        self.assertEqual(ran(*words, "q.lls", "--period", "3", folder=self.folder), (0, "alone: 65\n", ""))
        status, out, err = ran(*words, "--crew", "4", "--seeds", "3", "q.lls", "--period", "3", folder=self.folder)
        crews = "".join(f"--crew 4 --turns {seed}: {needed}\n" for seed, needed in enumerate((0, 1000, 77)))
        self.assertEqual((status, out, err), (0, "alone: 65\n" + crews, ""))
        self.assertIn("--period 3 --crew 4 --turns 1 --manner restless --budget 1000", self.read("calls"))
        self.assertEqual(ran(*words, "other.lls", folder=self.folder), (1, "", "turns.py: `lls search` ended with 2\n"))

    def test_a_search_that_no_budget_decides(self):
        self.write("lls", "#!/bin/sh\nexit 30\n", True)
        self.assertEqual(ran("turns.py", "--lls", "./lls", "q.lls", folder=self.folder), (1, "", "turns.py: the greatest budget is spent\n"))


if __name__ == "__main__":
    unittest.main()
