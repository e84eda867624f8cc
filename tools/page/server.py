#!/usr/bin/env python3
"""Serves the page on which questions are drawn, run, looked at and published. It listens on the loopback address alone.

    server.py [--lls PROGRAM] [--port N] [FILE]

--port is 8037 where it isn't given, and any free one where it is 0.

Prints the page's address, which has a token that each request has to carry, and serves until Ctrl-C, which ends the runs that it began. Runs stand below
`lls-runs` of the folder that it is started in, and are there when it is started again. FILE is a search file that the page shows first. No file outside of
that folder is read or written for a request.

What a request may say, and how each part of it is refused, stands in docs/page.md.
"""
import argparse
import io
import json
import os
import re
import secrets
import signal
import subprocess
import sys
import tempfile
import zipfile
from http.server import BaseHTTPRequestHandler, ThreadingHTTPServer

HERE = os.path.dirname(os.path.abspath(__file__))
TOOLS = os.path.dirname(HERE)
sys.path[:0] = [TOOLS, HERE]

import ending  # noqa: E402
import asked  # noqa: E402
import pictures  # noqa: E402
import words as spoken  # noqa: E402
from runs import PATTERN, PROOF, QUESTION, Runs, TooMany, text_of, write  # noqa: E402
from with_solver import LLS  # noqa: E402

PORT = 8037
RUNS = "lls-runs"
# The most bytes of a request, of a proof that is looked at again, and the most seconds that a question is tried for its refusals.
MOST_REQUEST, MOST_PROOF, SECONDS = 2_097_152, 1_073_741_824, 5
FILES = {
    "": ("page.html", "text/html; charset=utf-8"),
    "page.css": ("page.css", "text/css; charset=utf-8"),
    **{name: (name, "text/javascript; charset=utf-8") for name in ("main.js", "question.js", "draw.js", "look.js", "asking.js")},
}
HEADERS = {
    "Content-Security-Policy": "default-src 'none'; script-src 'self'; style-src 'self'; img-src 'self' data:; connect-src 'self'; form-action 'none'; frame-ancestors 'none'; base-uri 'none'",
    "X-Content-Type-Options": "nosniff",
    "Referrer-Policy": "no-referrer",
    "Cross-Origin-Resource-Policy": "same-origin",
    "Cache-Control": "no-store",
}
NAME = re.compile(r"[A-Za-z0-9][A-Za-z0-9._-]{0,63}(/[A-Za-z0-9][A-Za-z0-9._-]{0,63}){0,7}")
POSES = ("still", "oscillator", "rotor", "spaceship", "glide", "copies", "torus", "predecessor", "orphan")


class Refused(Exception):
    """A request that isn't answered, with its status and why."""

    def __init__(self, status, why):
        super().__init__(why)
        self.status = status


def text_in(body, name, most=MOST_REQUEST):
    """Returns a text of a request."""
    value = body.get(name, "")
    if not isinstance(value, str) or len(value) > most or "\0" in value:
        raise Refused(400, f"'{name}' is a text")
    return value


class Page:
    """What the page shows and does, in one folder."""

    def __init__(self, folder, program, first=None, most=None):
        self.folder, self.program, self.first = os.path.realpath(folder), program, first
        self.runs = Runs(os.path.join(self.folder, RUNS), program, most)

    def inside(self, name):
        """Returns the path of a name below the folder, or refuses one that leads out of it."""
        if not NAME.fullmatch(name):
            raise Refused(400, "a name has letters, digits, dots, dashes and underscores, and begins with a letter or a digit; folders are set apart by /")
        path = os.path.realpath(os.path.join(self.folder, name))
        if not path.startswith(self.folder + os.sep):
            raise Refused(403, f"'{name}' leads out of the folder that the page was started in")
        return path

    def question_in(self, body):
        """Returns the cells and the options of a request's question."""
        cells, options = text_in(body, "cells"), body.get("options", {})
        if not isinstance(options, dict) or not all(isinstance(value, str) and len(value) < 1000 and "\0" not in value and "\n" not in value for value in options.values()):
            raise Refused(400, "'options' are names with values")
        return cells, {name: value for name, value in options.items() if name in spoken.RANGES or name in asked.ASKING or name in ("keep", "manner", "as")}

    def command_in(self, body):
        command = text_in(body, "command", 20)
        if command not in asked.COMMANDS:
            raise Refused(400, f"no command '{command}' here")
        return command

    def run_in(self, body):
        run = self.runs.all.get(text_in(body, "run", 20))
        if run is None:
            raise Refused(404, "no such run")
        return run

    # What a request asks for, by its name. Each takes the request's object and returns one.

    def about(self, _):
        """What the page has to know when it opens."""
        first = None
        if self.first:
            cells, options = asked.read(text_of(self.first))
            first = {"cells": cells, "options": options, "name": os.path.basename(self.first)}
        return {
            "first": first, "processors": self.runs.most, "folder": os.path.basename(self.folder), "symmetries": spoken.CHOICES["symmetry"],
            "commands": {command: list(asked.taken_by(command)) for command in asked.COMMANDS}, "poses": list(POSES),
            "limits": [asked.MOST_GENERATIONS, asked.MOST_SIDE, asked.MOST_CELLS],
        }

    def check_question(self, body):
        """The program's own refusal of a question, in its words and in ours, with the option at fault or the place in the cells."""
        cells, options = self.question_in(body)
        command = self.command_in(body)
        # A spread search is refused as a search is. `cnf` and `opencheck` read the question alone.
        tried = "opencheck" if command == "open" else "cnf"
        with tempfile.TemporaryDirectory() as room:
            write(os.path.join(room, QUESTION), cells)
            write(os.path.join(room, PROOF), "")
            line = [tried, QUESTION, *([PROOF] if tried == "opencheck" else []), *asked.options_of(tried, options)]
            try:
                # The formula itself isn't wanted, and may be large.
                ran = subprocess.run([self.program, *line], cwd=room, stdin=subprocess.DEVNULL, stdout=subprocess.DEVNULL, stderr=subprocess.PIPE, timeout=SECONDS, check=False)
            except subprocess.TimeoutExpired:
                return {"status": 0, "said": ""}
            said = ran.stderr.decode(errors="replace").strip()
            if ran.returncode in (0, 1):
                return {"status": 0, "said": ""}
            explained = subprocess.run([sys.executable, os.path.join(TOOLS, "explain.py"), str(ran.returncode), said, *line], cwd=room, stdin=subprocess.DEVNULL, capture_output=True, text=True, timeout=SECONDS, check=False).stdout
        return {"status": ran.returncode, "said": said, "why": explained.strip(), **self.place_of(said, line)}

    def place_of(self, said, line):
        """Returns which option a refusal is about, or which line and column of the cells."""
        fault = re.search(r"(?:words|content|limit): (\w+)((?: -?\d+)*)", said)
        if not fault:
            return {}
        name, numbers = fault[1], [int(number) for number in fault[2].split()]
        by_demand = {"NotSquare": "symmetry", "BoundsCross": "live", "PeriodTooLong": "period", "Counters": "live", "NoGeneration": "live", "RulesCross": "low", "LooseBackground": "low"}
        if name in by_demand:
            option = by_demand[name]
            if name == "NoGeneration" and not any(word.startswith("--live=") and re.search(rf"(=|,)0*{numbers[0]}:", word) for word in line):
                option = "differ"
            return {"option": option}
        if "words:" in said and numbers and 0 < numbers[0] <= len(line) and line[numbers[0] - 1].startswith("--"):
            return {"option": line[numbers[0] - 1][2:].split("=")[0]}
        if "content:" in said and len(numbers) >= 2:
            return {"line": numbers[0], "column": numbers[1]}
        return {}

    def pose(self, body):
        """A common question, as tools/pose.py writes it."""
        line = body.get("words", [])
        if not isinstance(line, list) or not line or line[0] not in POSES or not all(isinstance(word, str) and len(word) < 100 for word in line):
            raise Refused(400, f"a question is one of {', '.join(POSES)}, with its numbers")
        if any(word == "-o" or word.startswith(("-o", "--")) and word not in ("--margin", "--back", "--at") for word in line):
            raise Refused(400, "--margin, --back and --at are the options here")
        with tempfile.TemporaryDirectory() as room:
            write(os.path.join(room, "picture"), text_in(body, "picture"))
            given = [line[0], *(["picture"] if line[0] in ("predecessor", "orphan") else []), *line[1:]]
            ran = subprocess.run([sys.executable, os.path.join(TOOLS, "pose.py"), *given], cwd=room, stdin=subprocess.DEVNULL, capture_output=True, text=True, timeout=SECONDS, check=False)
        if ran.returncode:
            raise Refused(400, (ran.stderr.strip().split("\n") or ["it can't be asked"])[-1].removeprefix("pose.py: "))
        cells, options = asked.read(ran.stdout)
        return {"cells": cells, "options": options, "notes": [text.removeprefix("note: ") for text in ran.stderr.splitlines() if text.startswith("note: ")]}

    def read_picture(self, body):
        """The rows of a picture in any of the forms of collections, or of a search file's text."""
        text = text_in(body, "text")
        if pictures.is_picture(text):
            try:
                picture = pictures.pictures_of(text)[0]
            except pictures.BadPicture as fault:
                raise Refused(400, str(fault)) from None
            rows = [[str(cell) for cell in row] for row in picture.rows]
            if len(rows) > asked.MOST_SIDE or any(len(row) > asked.MOST_SIDE for row in rows):
                raise Refused(400, f"the picture has more than {asked.MOST_SIDE} rows or columns")
            return {"rows": rows, "rule": picture.rule, "notes": picture.notes}
        cells, options = asked.read(text)
        return {"cells": cells, "options": options}

    def rule(self, body):
        """For each of the 512 neighbourhoods whether a rule makes it live: bits from 256, the cell to the north-west, to 1."""
        text = text_in(body, "rule", 1000) or spoken.LIFE
        if spoken.rule_fault(text):
            raise Refused(400, f"'{text}' is no rule in B/S or Hensel notation")
        live = spoken.live_nines(text)
        return {"table": [int(nine in live) for nine in range(512)]}

    def begin(self, body):
        command, (cells, options) = self.command_in(body), self.question_in(body)
        given = {name: value for name, value in options.items() if name in asked.ASKING}
        effort = {name: value for name, value in options.items() if name not in asked.ASKING}
        inputs = []
        if command == "judge":
            inputs.append((PATTERN, text_in(body, "pattern")))
        if command == "check":
            inputs.append((PROOF, self.proof_in(body)))
        try:
            run = self.runs.begin(command, cells, given, inputs, effort)
        except TooMany:
            raise Refused(429, f"{asked.count(self.runs.most, 'run')} are under way, as many as there are processors: stop one, or wait") from None
        return {"run": run.said["name"]}

    def proof_in(self, body):
        """Returns the bytes of the proof that is to be checked: of a run, or of a published folder."""
        if "folder" in body:
            path = os.path.join(self.inside(text_in(body, "folder", 600)), PROOF)
            # A link in a published folder may lead out of it.
            path = self.inside(os.path.relpath(path, self.folder))
        else:
            path = self.run_in({"run": body.get("of", "")}).path(PROOF)
        if not os.path.isfile(path):
            raise Refused(404, "there is no proof")
        if os.path.getsize(path) > MOST_PROOF:
            raise Refused(413, "the proof is longer than `check` reads")
        with open(path, "rb") as file:
            return file.read()

    def list(self, _):
        return {"runs": [run.short() for _, run in sorted(self.runs.all.items(), reverse=True)]}

    def show(self, body):
        return self.run_in(body).whole()

    def stop(self, body):
        self.runs.stop(self.run_in(body))
        return {}

    def forget(self, body):
        self.runs.forget(self.run_in(body))
        return {}

    def published(self, run):
        """Returns the files of a run that are published, by name: the question, the answer, the proof or the pattern, and how to check them."""
        said, whole = run.said, run.whole()
        if said.get("status") not in (0, 1, 10, 20, 30):
            raise Refused(409, "this run has no answer to publish")
        answer, given = whole["answer"], said["options"]
        files = {QUESTION: text_of(run.path(QUESTION)).encode(), "answer": answer.encode()}
        if os.path.exists(run.path(PROOF)):
            with open(run.path(PROOF), "rb") as file:
                files[PROOF] = file.read()
        head, _, below = answer.partition("\n")
        is_headed = re.match(r"(least|most|at most|at least) \d|B\S*/S", head)
        if said["command"] not in ("judge", "check") and said["status"] in (10, 30) and re.search(r"^[01]( [01])*$", answer, re.M):
            rows = below if is_headed else answer
            files[PATTERN] = rows.encode()
            files["pattern.rle"] = asked.rle_of(rows, head if said["command"] == "open" else given.get("rule") or spoken.LIFE).encode()
        if said["command"] == "judge":
            files[PATTERN] = text_of(run.path(PATTERN)).encode()
        line = asked.checking(said["command"], given, said["status"], answer)
        if said["command"] == "judge" and not re.fullmatch(rb"[01 \n]*", files[PATTERN]):
            line += " --as rle"
        told = [whole["says"], *(f"- {text}" for text in whole["leaves_out"]), "", f"The question is {QUESTION}: its line `#!` has the options, and docs/formats.md of `lls` says what the rest means."]
        if line and (PROOF in files or "judge" in line):
            told += ["To check it, in a copy of `lls`, with these files beside it:", "", f"    {line}", ""]
        files["README.txt"] = "\n".join(told).encode()
        return files

    def publish(self, body):
        """Writes a run's files into a folder of its own, which isn't there yet."""
        files = self.published(self.run_in(body))
        folder = self.inside(text_in(body, "name", 600))
        try:
            os.makedirs(folder)
        except FileExistsError:
            raise Refused(409, f"'{body['name']}' is there already") from None
        for name, data in files.items():
            with open(os.path.join(folder, name), "wb") as file:
                file.write(data)
        return {"folder": os.path.relpath(folder, self.folder), "files": sorted(files)}

    def open(self, body):
        """Reads a search file, or a published folder, below the page's folder."""
        name = text_in(body, "name", 600)
        path = self.inside(name)
        folder = os.path.isdir(path)
        file = self.inside(os.path.join(name, QUESTION)) if folder else path
        if not os.path.isfile(file) or os.path.getsize(file) > 1_048_576:
            raise Refused(404, f"'{name}' is no search file, and no published folder")
        cells, options = asked.read(text_of(file))
        shown = {"cells": cells, "options": options, "name": name}
        if folder:
            shown["folder"] = name
            shown["files"] = sorted(os.listdir(path))
            if PATTERN in shown["files"]:
                shown["pattern"] = text_of(self.inside(os.path.join(name, PATTERN)))
            shown["has_proof"] = PROOF in shown["files"]
            shown["told"] = text_of(self.inside(os.path.join(name, "README.txt"))) if "README.txt" in shown["files"] else ""
        return shown

    def files(self, _):
        """The search files and published folders below the folder, at most 500 of them, and none of the runs."""
        found = []
        for top, folders, names in os.walk(self.folder):
            folders[:] = sorted(name for name in folders if NAME.fullmatch(name) and (top, name) != (self.folder, RUNS))
            where = os.path.relpath(top, self.folder)
            near = "" if where == "." else where + "/"
            if QUESTION in names and near:
                found.append(near.rstrip("/"))
            found += [near + name for name in sorted(names) if name.endswith(".lls") and name != QUESTION and NAME.fullmatch(name)]
            if len(found) >= 500:
                break
        return {"files": found[:500]}


ASKED = {
    "about": Page.about, "check": Page.check_question, "pose": Page.pose, "picture": Page.read_picture, "rule": Page.rule, "begin": Page.begin, "runs": Page.list,
    "run": Page.show, "stop": Page.stop, "forget": Page.forget, "publish": Page.publish, "open": Page.open, "files": Page.files,
}


class Handler(BaseHTTPRequestHandler):
    """Answers requests, each of which carries the token and comes from the page itself."""

    protocol_version = "HTTP/1.1"
    # A request that doesn't come is let go.
    timeout = 30

    def send(self, status, kind, data, more=()):
        self.send_response(status)
        for name, value in (*HEADERS.items(), ("Content-Type", kind), ("Content-Length", str(len(data))), *more):
            self.send_header(name, value)
        self.end_headers()
        if self.command != "HEAD":
            self.wfile.write(data)

    def send_object(self, status, value):
        self.send(status, "application/json", json.dumps(value).encode())

    def asked_path(self):
        """Returns what stands behind the token, or refuses the request."""
        hosts = [f"{host}:{self.server.server_port}" for host in ("127.0.0.1", "localhost")]
        if self.headers.get("Host") not in hosts:
            raise Refused(403, "another host")
        if self.headers.get("Origin") not in (None, *(f"http://{host}" for host in hosts)):
            raise Refused(403, "another origin")
        _, token, *rest = self.path.split("?")[0].split("/", 2)
        if not secrets.compare_digest(token.encode(), self.server.token.encode()):
            raise Refused(403, "no token, or another one")
        return rest[0] if rest else None

    def answer(self, make):
        try:
            make(self.asked_path())
        except Refused as fault:
            # What is left of the request isn't read, so nothing can follow it.
            self.close_connection = True
            self.send_object(fault.status, {"why": str(fault)})
        except asked.BadQuestion as fault:
            self.send_object(400, {"why": str(fault)})
        except OSError as fault:
            self.send_object(500, {"why": f"{fault.filename or ''}: {fault.strerror}"})

    def do_GET(self):
        self.answer(self.get)

    def do_POST(self):
        self.answer(self.post)

    def get(self, path):
        if path is None:
            self.send(301, "text/plain", b"", [("Location", f"/{self.server.token}/")])
        elif path in FILES:
            name, kind = FILES[path]
            with open(os.path.join(HERE, name), "rb") as file:
                self.send(200, kind, file.read())
        elif path.startswith("zip/"):
            run = self.server.page.run_in({"run": path.removeprefix("zip/")})
            data = io.BytesIO()
            with zipfile.ZipFile(data, "w", zipfile.ZIP_DEFLATED) as packed:
                for name, content in self.server.page.published(run).items():
                    packed.writestr(f"lls-{run.said['name']}/{name}", content)
            self.send(200, "application/zip", data.getvalue(), [("Content-Disposition", f'attachment; filename="lls-{run.said["name"]}.zip"')])
        else:
            raise Refused(404, "nothing is there")

    def post(self, path):
        if path not in ASKED:
            raise Refused(404, "nothing is there")
        if self.headers.get("Content-Type", "").split(";")[0] != "application/json":
            raise Refused(415, "a request is an object in JSON")
        length = self.headers.get("Content-Length", "")
        if not length.isdigit():
            raise Refused(411, "a request says its length")
        if int(length) > MOST_REQUEST:
            raise Refused(413, f"a request has at most {MOST_REQUEST} bytes")
        try:
            body = json.loads(self.rfile.read(int(length)))
        except ValueError:
            raise Refused(400, "a request is an object in JSON") from None
        if not isinstance(body, dict):
            raise Refused(400, "a request is an object in JSON")
        self.send_object(200, ASKED[path](self.server.page, body))

    def log_message(self, *_):
        """Says nothing of requests."""


class Server(ThreadingHTTPServer):
    """The page's server, with its token."""

    daemon_threads = True

    def __init__(self, port, page):
        super().__init__(("127.0.0.1", port), Handler)
        self.page, self.token = page, secrets.token_urlsafe(18)

    def address(self):
        return f"http://127.0.0.1:{self.server_port}/{self.token}/"


def main():
    parser = argparse.ArgumentParser(description=__doc__, formatter_class=argparse.RawDescriptionHelpFormatter)
    parser.add_argument("--lls", metavar="PROGRAM", default=LLS)
    parser.add_argument("--port", metavar="N", type=int, default=PORT, choices=range(65536))
    parser.add_argument("first", metavar="FILE", nargs="?")
    words = parser.parse_args()
    if words.first and not os.path.isfile(words.first):
        sys.exit(f"server.py: no file '{words.first}'")
    page = Page(os.getcwd(), os.path.abspath(words.lls), words.first)
    try:
        server = Server(words.port, page)
    except OSError as fault:
        sys.exit(f"server.py: port {words.port}: {fault.strerror}; --port 0 takes a free one")
    # Ended in whatever way, it leaves no run behind.
    for number in (signal.SIGTERM, signal.SIGHUP):
        signal.signal(number, lambda number, _: sys.exit(128 + number))
    print(f"The page is at {server.address()} (Ctrl-C ends it, and the runs that it began)", flush=True)
    try:
        server.serve_forever()
    finally:
        page.runs.stop_all()
    return 0


if __name__ == "__main__":
    ending.run(main, __doc__)
