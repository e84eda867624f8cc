#!/usr/bin/env python3
"""Tests tools/page: its server over a stand-in for the program, and the page itself in a headless browser.

    test_page.py [--pictures FOLDER]

The page is driven where Debian's packages `chromium` and `chromium-driver` and the built program are there, and else that is left out with a line. With --pictures the
driven page is shown in its main states as PNG in FOLDER.
"""
import base64
import http.client
import io
import json
import os
import shutil
import signal
import socket
import subprocess
import sys
import tempfile
import threading
import time
import unittest
import urllib.request
import zipfile

TOP = os.path.dirname(os.path.dirname(os.path.abspath(__file__)))
PROGRAM = os.path.join(TOP, "crates", "lls", "out", "lls")
sys.path[:0] = [os.path.join(TOP, "tools", "page"), os.path.join(TOP, "tools")]
PICTURES = None

import asked  # noqa: E402
import server  # noqa: E402
from runs import Runs  # noqa: E402

# A stand-in: it finds the block, or waits with a half proof where --budget is 7.
STAND_IN = """#!/bin/sh
case $1 in
cnf) case "$*" in *period=9*) echo 'lls: content: PeriodTooLong 9' >&2; exit 3 ;; esac ;;
search) case "$*" in
    *budget=7*) echo half >proof.lrat; sleep 60 ;;
    *live=0:1-3*) echo '9 0 1 2 0' >proof.lrat; echo 'no pattern'; exit 20 ;;
    *) printf '1 1\\n1 1\\n\\n1 1\\n1 1\\n'; exit 10 ;;
    esac ;;
check) [ "$(cat proof.lrat)" = '9 0 1 2 0' ] && echo accepted ;;
judge) [ "$(head -n 1 pattern)" = '1 1' ] && echo meets ;;
esac
"""
CELLS = "* *\n* *\n\n* *\n* *\n"


class Served(unittest.TestCase):
    """A server over the stand-in, in a folder of its own."""

    MOST = 4

    def setUp(self):
        self.room = tempfile.TemporaryDirectory()
        self.folder = os.path.join(self.room.name, "here")
        os.mkdir(self.folder)
        program = os.path.join(self.room.name, "lls")
        with open(program, "w", encoding="ascii") as file:
            file.write(STAND_IN)
        os.chmod(program, 0o755)
        self.page = server.Page(self.folder, program, most=self.MOST)
        self.server = server.Server(0, self.page)
        threading.Thread(target=self.server.serve_forever, daemon=True).start()

    def tearDown(self):
        self.page.runs.stop_all()
        self.server.shutdown()
        self.server.server_close()
        self.room.cleanup()

    def request(self, method, path, body=None, **headers):
        """Returns the status, the headers and the content of an answer."""
        connection = http.client.HTTPConnection("127.0.0.1", self.server.server_port, timeout=10)
        given = {name.replace("_", "-"): value for name, value in headers.items()}
        if method == "POST":
            given.setdefault("Content-Type", "application/json")
        connection.request(method, path, body, given)
        answer = connection.getresponse()
        content = answer.read()
        connection.close()
        return answer.status, dict(answer.getheaders()), content

    def ask(self, what, status=200, **body):
        found, _, content = self.request("POST", f"/{self.server.token}/{what}", json.dumps(body))
        self.assertEqual(found, status, content)
        return json.loads(content)

    def begun(self, command="search", cells=CELLS, options=None, **more):
        return self.ask("begin", command=command, cells=cells, options={"period": "1", "live": "0:1-"} if options is None else options, **more)["run"]

    def ended(self, run):
        """Returns a run when it has ended."""
        for _ in range(400):
            found = self.ask("run", run=run)
            if not found["running"]:
                return found
            time.sleep(0.02)
        return self.fail("a run goes on")


class Requests(Served):
    def test_parts_of_the_page(self):
        for name, kind in (("", "text/html"), ("page.css", "text/css"), ("main.js", "text/javascript"), ("draw.js", "text/javascript")):
            status, headers, content = self.request("GET", f"/{self.server.token}/{name}")
            self.assertEqual((status, headers["Content-Type"].split(";")[0], bool(content)), (200, kind, True))
            self.assertIn("script-src 'self'", headers["Content-Security-Policy"])
            self.assertEqual((headers["X-Content-Type-Options"], headers["Referrer-Policy"]), ("nosniff", "no-referrer"))
        self.assertEqual(self.request("GET", f"/{self.server.token}")[0], 301)
        for name in ("server.py", "../server.py", "..%2fserver.py", "zip/9999", "zip/../lls"):
            self.assertEqual(self.request("GET", f"/{self.server.token}/{name}")[0], 404, name)

    def test_the_loopback_address_alone(self):
        self.assertEqual(self.server.server_address[0], "127.0.0.1")

    def test_token_host_and_origin(self):
        token, port = self.server.token, self.server.server_port
        rows = [
            ("/about", {}, 403), ("/", {}, 403), (f"/{token}x/about", {}, 403), (f"/{token[:-1]}/about", {}, 403),
            (f"/{token}/about", {"Host": "elsewhere.example"}, 403), (f"/{token}/about", {"Host": f"127.0.0.1:{port + 1}"}, 403),
            (f"/{token}/about", {"Origin": "http://elsewhere.example"}, 403), (f"/{token}/about", {"Origin": "null"}, 403),
            (f"/{token}/about", {"Host": f"localhost:{port}", "Origin": f"http://localhost:{port}"}, 200), (f"/{token}/about", {"Origin": f"http://127.0.0.1:{port}"}, 200),
        ]
        for path, headers, status in rows:
            self.assertEqual(self.request("POST", path, "{}", **headers)[0], status, (path, headers))

    def test_requests_that_are_none(self):
        path = f"/{self.server.token}/about"
        self.assertEqual(self.request("POST", path, "{}", Content_Type="text/plain")[0], 415)
        for body in ("", "{", "[]", "1", '"x"'):
            self.assertEqual(self.request("POST", path, body)[0], 400, body)
        self.assertEqual(self.request("POST", f"/{self.server.token}/nothing", "{}")[0], 404)
        self.assertEqual(self.request("POST", path, "{}", Content_Length=str(server.MOST_REQUEST + 1))[0], 413)
        for what, body in (("begin", {"command": "rule"}), ("begin", {"command": "search", "cells": 1}), ("begin", {"command": "search", "options": {"live": 1}}), ("begin", {"command": "search", "options": {"live": "a\nb"}}),
                           ("pose", {"words": ["made"]}), ("pose", {"words": ["still", "3", "3", "-o", "x"]}), ("pose", {"words": "still"}), ("picture", {"text": "x = 1"}), ("rule", {"rule": "B9/S"})):
            self.assertIn("why", self.ask(what, 400, **body), what)
        self.ask("run", 404, run="0009")

    def test_names_that_lead_out(self):
        with open(os.path.join(self.room.name, "secret.lls"), "w", encoding="ascii") as file:
            file.write("1\n")
        os.symlink("../secret.lls", os.path.join(self.folder, "link.lls"))
        os.symlink("..", os.path.join(self.folder, "up"))
        for name, status in (("../secret.lls", 400), ("/etc/passwd", 400), ("a/../../secret.lls", 400), (".hidden", 400), ("", 400), ("a//b", 400), ("link.lls", 403), ("up/secret.lls", 403), ("none.lls", 404)):
            self.ask("open", status, name=name)
        run = self.begun()
        self.ended(run)
        for name, status in (("../out", 400), ("/tmp/out", 400), ("up/out", 403)):
            self.ask("publish", status, run=run, name=name)
        self.ask("begin", 403, command="check", cells=CELLS, options={}, folder="up")
        self.assertEqual(sorted(os.listdir(self.room.name)), ["here", "lls", "secret.lls"])

    def test_what_a_question_is_refused_for(self):
        found = self.ask("check", command="search", cells=CELLS, options={"period": "9"})
        self.assertEqual((found["status"], found["said"], found["option"]), (3, "lls: content: PeriodTooLong 9", "period"))
        self.assertIn("asks for 10 generations or more", found["why"])
        self.assertEqual(self.ask("check", command="search", cells=CELLS, options={"period": "1"}), {"status": 0, "said": ""})

    def test_common_questions_pictures_and_rules(self):
        posed = self.ask("pose", words=["oscillator", "3", "3", "2", "--margin", "0"])
        self.assertEqual((posed["options"], posed["cells"].count("* * *")), ({"period": "2", "differ": "0,1"}, 9))
        self.assertEqual(self.ask("pose", words=["predecessor"], picture="bo$2bo$3o!\n")["cells"].count("\n\n"), 1)
        self.assertIn("why", self.ask("pose", 400, words=["oscillator", "3"]))
        self.assertEqual(self.ask("picture", text="x = 3, y = 1, rule = B36/S23\nobo!\n"), {"rows": [["1", "0", "1"]], "rule": "B36/S23", "notes": []})
        self.assertEqual(self.ask("picture", text="#! --period 1\n* a\n"), {"cells": "* a\n", "options": {"period": "1"}})
        table = self.ask("rule", rule="B3/S23")["table"]
        # By counting: a dead cell with three neighbours, a live one with two or three.
        self.assertEqual(table, [int(bin(nine & 0b111101111).count("1") in ((2, 3) if nine & 16 else (3,))) for nine in range(512)])


class OfRuns(Served):
    MOST = 1

    def test_answers_and_what_they_say(self):
        found = self.ended(self.begun())
        self.assertEqual((found["status"], found["answer"]), (10, "1 1\n1 1\n\n1 1\n1 1\n"))
        self.assertIn("This pattern fits", found["says"])
        found = self.ended(self.begun(options={"period": "1", "live": "0:1-3"}))
        self.assertEqual((found["status"], found["answer"], found["proof"]), (20, "no pattern\n", 10))
        self.assertTrue(any("the box" in text for text in found["leaves_out"]) and any("ring" in text for text in found["leaves_out"]))
        checked = self.ended(self.begun("check", options={"period": "1", "live": "0:1-3"}, of=found["name"]))
        self.assertEqual((checked["status"], checked["answer"]), (0, "accepted\n"))
        judged = self.ended(self.begun("judge", pattern="1 1\n1 1\n"))
        self.assertEqual(judged["answer"], "meets\n")
        self.assertEqual(self.ask("publish", run=judged["name"], name="judged")["files"], ["README.txt", "answer", "pattern", "question.lls"])

    def test_a_run_that_is_stopped_leaves_nothing_half(self):
        run = self.begun(options={"budget": "7"})
        folder = os.path.join(self.folder, server.RUNS, run)
        while not os.path.exists(os.path.join(folder, "proof.lrat")):
            time.sleep(0.01)
        self.ask("begin", 429, command="search", cells=CELLS, options={})
        process = self.page.runs.all[run].process
        self.ask("stop", run=run)
        found = self.ask("run", run=run)
        self.assertEqual((found["running"], found["how"], found["status"], found["answer"], found["proof"]), (False, "stopped", None, "", 0))
        self.assertEqual(sorted(os.listdir(folder)), ["cells", "question.lls", "run.json", "said"])
        self.assertIsNotNone(process.poll())
        self.ask("publish", 409, run=run, name="nothing")
        self.ended(self.begun())
        self.ask("forget", run=run)
        self.assertFalse(os.path.exists(folder))

    def test_runs_are_there_when_it_is_served_again(self):
        run = self.begun()
        self.ended(run)
        meta = os.path.join(self.folder, server.RUNS, "0002")
        os.mkdir(meta)
        with open(os.path.join(meta, "run.json"), "w", encoding="ascii") as file:
            json.dump({"name": "0002", "command": "search", "options": {}, "began": time.time()}, file)
        with open(os.path.join(meta, "proof.lrat"), "w", encoding="ascii") as file:
            file.write("half")
        again = Runs(os.path.join(self.folder, server.RUNS), self.page.program)
        self.assertEqual([(one.said["name"], one.said["status"], one.said["how"]) for one in again.all.values()], [(run, 10, None), ("0002", None, "stopped")])
        self.assertEqual(os.listdir(meta), ["run.json"])

    def test_publishing(self):
        run = self.begun(options={"period": "1", "live": "0:1-3"})
        self.ended(run)
        self.assertEqual(self.ask("publish", run=run, name="none/of-three")["files"], ["README.txt", "answer", "proof.lrat", "question.lls"])
        self.ask("publish", 409, run=run, name="none/of-three")
        folder = os.path.join(self.folder, "none", "of-three")
        with open(os.path.join(folder, "question.lls"), encoding="ascii") as file:
            self.assertEqual(file.read(), "#! --period 1 --live 0:1-3\n" + CELLS)
        with open(os.path.join(folder, "README.txt"), encoding="utf-8") as file:
            self.assertIn("    ./lls check question.lls proof.lrat\n", file.read())
        self.assertEqual(self.ask("files")["files"], ["none/of-three"])
        opened = self.ask("open", name="none/of-three")
        self.assertEqual((opened["cells"], opened["options"], opened["has_proof"]), (CELLS, {"period": "1", "live": "0:1-3"}, True))
        self.assertEqual(self.ended(self.begun("check", options=opened["options"], folder="none/of-three"))["answer"], "accepted\n")
        status, headers, content = self.request("GET", f"/{self.server.token}/zip/{run}")
        self.assertEqual((status, headers["Content-Type"]), (200, "application/zip"))
        with zipfile.ZipFile(io.BytesIO(content)) as packed:
            self.assertEqual(packed.read(f"lls-{run}/proof.lrat"), b"9 0 1 2 0\n")

    def test_patterns_as_rle(self):
        run = self.begun()
        self.ended(run)
        self.assertEqual(self.ask("publish", run=run, name="block")["files"], ["README.txt", "answer", "pattern", "pattern.rle", "question.lls"])
        with open(os.path.join(self.folder, "block", "pattern.rle"), encoding="ascii") as file:
            self.assertEqual(file.read(), "x = 2, y = 2, rule = B3/S23\n2o$2o!\n")
        rows = [[int((x * y + x) % 3 == 0 and y % 4 > 1) for x in range(40)] for y in range(30)]
        text = "\n".join(" ".join(map(str, row)) for row in rows) + "\n\n0\n"
        rle = asked.rle_of(text, "B36/S23")
        self.assertLessEqual(max(map(len, rle.split("\n"))), 70)
        [picture] = server.pictures.pictures_of(rle)
        self.assertEqual((picture.rows, picture.rule), (rows, "B36/S23"))

    def test_how_answers_are_checked(self):
        rows = [
            ("search", {}, 10, "1\n", "./lls judge question.lls pattern"), ("search", {}, 20, "no pattern\n", "./lls check question.lls proof.lrat"), ("open", {}, 20, "no pattern\n", "./lls opencheck question.lls proof.lrat"),
            ("least", {"period": "1", "live": "0:1-"}, 10, "least 4\n1\n", "./lls check question.lls proof.lrat --period 1 --live 0:1-,0:-3"), ("most", {"period": "1"}, 10, "most 4\n1\n", "./lls check question.lls proof.lrat --period 1 --live 0:5-"),
            ("search", {}, 30, "undecided\n", None),
        ]
        for command, given, status, answer, line in rows:
            self.assertEqual(asked.checking(command, given, status, answer), line)

    def test_ended_by_the_system_it_ends_its_runs(self):
        words = [sys.executable, os.path.join(TOP, "tools", "page", "server.py"), "--lls", self.page.program, "--port", "0"]
        with subprocess.Popen(words, cwd=self.folder, stdout=subprocess.PIPE, text=True) as served:
            address = served.stdout.readline().split()[4]
            body = json.dumps({"command": "search", "cells": CELLS, "options": {"budget": "7"}}).encode()
            urllib.request.urlopen(urllib.request.Request(f"{address}begin", body, {"Content-Type": "application/json"}), timeout=10).read()
            served.send_signal(signal.SIGTERM)
            self.assertEqual(served.wait(10), 128 + signal.SIGTERM)
        with open(os.path.join(self.folder, server.RUNS, "0001", "run.json"), encoding="ascii") as file:
            self.assertEqual(json.load(file)["how"], "stopped")


def free_port():
    with socket.socket() as one:
        one.bind(("127.0.0.1", 0))
        return one.getsockname()[1]


class Browser:
    """A headless Chromium, driven over its WebDriver (https://www.w3.org/TR/webdriver2/)."""

    KEYS = {"left": "\ue012", "up": "\ue013", "right": "\ue014", "down": "\ue015", "shift": "\ue008", "control": "\ue009", "enter": "\ue007", "space": " ", "tab": "\ue004"}

    def __init__(self, size=(1280, 1000)):
        port = free_port()
        self.driver = subprocess.Popen(["chromedriver", f"--port={port}"], stdout=subprocess.DEVNULL, stderr=subprocess.DEVNULL)
        self.at = f"http://127.0.0.1:{port}"
        words = ["--headless=new", "--no-sandbox", "--disable-gpu", "--disable-dev-shm-usage", f"--window-size={size[0]},{size[1]}"]
        for _ in range(100):
            try:
                made = self.call("POST", "/session", {"capabilities": {"alwaysMatch": {"goog:chromeOptions": {"args": words}}}})
                break
            except OSError:
                time.sleep(0.1)
        self.at += f"/session/{made['sessionId']}"

    def call(self, method, path, body=None):
        data = None if body is None else json.dumps(body).encode()
        request = urllib.request.Request(self.at + path, data, {"Content-Type": "application/json"}, method=method)
        with urllib.request.urlopen(request, timeout=60) as answer:
            return json.load(answer)["value"]

    def close(self):
        self.call("DELETE", "")
        self.driver.terminate()
        self.driver.wait()

    def run(self, script, *given):
        return self.call("POST", "/execute/sync", {"script": script, "args": list(given)})

    def until(self, script, seconds=30):
        """Waits until a script gives something, and returns that."""
        for _ in range(seconds * 20):
            found = self.run(script)
            if found:
                return found
            time.sleep(0.05)
        raise AssertionError(f"not so within {seconds} s: {script}")

    def keys(self, *names):
        """Presses keys one after the other; one that is told as `a+b` with the first held."""
        actions = []
        for name in names:
            held = [self.KEYS.get(one, one) for one in (name.split("+") if len(name) > 1 else [name])]
            actions += [{"type": "keyDown", "value": one} for one in held] + [{"type": "keyUp", "value": one} for one in reversed(held)]
        self.call("POST", "/actions", {"actions": [{"type": "key", "id": "keys", "actions": actions}]})

    def fill(self, name, value):
        self.run("const it = document.getElementById(arguments[0]); it.value = arguments[1]; for (const kind of ['input', 'change']) it.dispatchEvent(new Event(kind, { bubbles: true }));", name, value)

    def click(self, name):
        self.run("document.getElementById(arguments[0]).click();", name)

    def picture(self, name):
        if PICTURES:
            with open(os.path.join(PICTURES, name), "wb") as file:
                file.write(base64.b64decode(self.call("GET", "/screenshot")))


HAS_BROWSER = bool(shutil.which("chromedriver") and (shutil.which("chromium") or shutil.which("google-chrome")) and os.access(PROGRAM, os.X_OK))


@unittest.skipUnless(HAS_BROWSER, "chromium, chromium-driver or the built program isn't there: the page itself isn't driven")
class Driven(unittest.TestCase):
    """The page itself, from the first cell to the published folder."""

    def setUp(self):
        self.room = tempfile.TemporaryDirectory()
        self.page = server.Page(self.room.name, PROGRAM)
        self.server = server.Server(0, self.page)
        threading.Thread(target=self.server.serve_forever, daemon=True).start()
        self.browser = Browser()
        self.browser.call("POST", "/url", {"url": self.server.address()})
        self.browser.until("return document.documentElement.dataset.ready")

    def tearDown(self):
        self.browser.close()
        self.page.runs.stop_all()
        self.server.shutdown()
        self.server.server_close()
        self.room.cleanup()

    def text(self):
        return self.browser.run("return document.getElementById('text').value")

    def test_keys_paint_undo_and_select(self):
        browser = self.browser
        browser.run("document.querySelector('#grids canvas').focus()")
        browser.keys("1", "right", "a", "right", "a", "-", "down", "0", "'")
        self.assertEqual(self.text().split("\n")[1:3], ["1 a -a * *", "* * 0' * *"])
        browser.keys("control+z", "control+z", "control+z")
        self.assertEqual(self.text().split("\n")[1:3], ["1 a a * *", "* * * * *"])
        browser.keys("control+y")
        self.assertEqual(self.text().split("\n")[1], "1 a -a * *")
        browser.keys("shift+right", "shift+down", "1")
        self.assertEqual(self.text().split("\n")[1:4], ["1 a -a * *", "* * 1 1 *", "* * 1 1 *"])
        self.assertIn("row 2, column 3: live", browser.run("return document.getElementById('cursor').textContent"))

    def test_a_refusal_stands_at_its_field(self):
        browser = self.browser
        browser.fill("option-period", "9")
        said = browser.until("return document.getElementById('fault').textContent")
        self.assertIn("PeriodTooLong 9", said)
        self.assertEqual(browser.run("return document.querySelector('.wrong').id"), "option-period")
        browser.picture("page-refusal.png")
        browser.fill("option-period", "1")
        browser.until("return document.getElementById('fault').textContent === '' && !document.querySelector('.wrong')")

    def test_from_drawing_to_a_published_folder(self):
        browser = self.browser
        for name, value in (("generations", "5"), ("rows", "5"), ("columns", "5")):
            browser.fill(name, value)
        browser.click("resize")
        # A corner is dead, by the pointer's own way of painting.
        browser.run("document.querySelector('#grids canvas').focus()")
        browser.keys("0")
        browser.fill("command", "least")
        browser.fill("option-period", "4,1,1")
        browser.fill("option-live", "0:1-")
        browser.picture("page-drawn.png")
        browser.click("begin")
        browser.until("return document.getElementById('says').textContent.startsWith('5 live cells in generation 0')")
        browser.until("return document.getElementById('moment').textContent === 'generation 0: 5 live'")
        browser.click("step")
        self.assertEqual(browser.run("return document.getElementById('moment').textContent"), "generation 1: 5 live")
        browser.picture("page-answer.png")
        browser.fill("publish-name", "glider")
        browser.click("publish")
        browser.until("return document.getElementById('said').textContent.startsWith('published')")
        folder = os.path.join(self.room.name, "glider")
        with open(os.path.join(folder, "README.txt"), encoding="utf-8") as file:
            line = next(line.split() for line in file if line.startswith("    ./lls check"))
        said = subprocess.run([PROGRAM, *line[1:]], cwd=folder, capture_output=True, text=True, check=False)
        self.assertEqual((said.returncode, said.stdout), (0, "accepted\n"))
        # Opened again it is shown, and its proof is checked with the bound beyond.
        browser.click("check")
        browser.until("return document.getElementById('says').textContent.startsWith('The proof is accepted')")

    def test_narrow_and_named(self):
        browser = self.browser
        browser.call("POST", "/window/rect", {"width": 420, "height": 900})
        self.assertLessEqual(browser.run("return document.documentElement.scrollWidth - document.documentElement.clientWidth"), 0)
        browser.picture("page-narrow.png")
        nameless = """return [...document.querySelectorAll('button, input, select, textarea, canvas')].filter((it) => it.checkVisibility() && !(it.labels?.length || it.getAttribute('aria-label') || it.textContent.trim())).map((it) => it.outerHTML)"""
        self.assertEqual(browser.run(nameless), [])


if __name__ == "__main__":
    if sys.argv[1:2] == ["--pictures"]:
        PICTURES = os.path.abspath(sys.argv[2])
        del sys.argv[1:3]
    unittest.main()
