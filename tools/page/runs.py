"""Runs of the program that the page began: each in a folder of its own, with its question, its answer and its proof."""
import contextlib
import json
import os
import shutil
import signal
import subprocess
import sys
import threading
import time

import asked

TOOLS = os.path.dirname(os.path.dirname(os.path.abspath(__file__)))
# The most bytes of an answer and of a fault that are handed to the page.
MOST_TEXT = 4_194_304
QUESTION, PROOF, PATTERN, ANSWER, SAID, META = "question.lls", "proof.lrat", "pattern", "answer", "said", "run.json"
# How an ended run ended, where it has no status: it was stopped, or whatever served it was.
STOPPED = "stopped"


class TooMany(Exception):
    """As many runs are under way as there are processors."""


def text_of(path):
    """Returns the first bytes of a file as text, or nothing where it isn't there."""
    try:
        with open(path, encoding="utf-8", errors="replace") as file:
            return file.read(MOST_TEXT)
    except OSError:
        return ""


def write(path, text):
    with open(path, "w", encoding="utf-8", newline="\n") as file:
        file.write(text)


def memory_of(pid):
    """Returns how many bytes a process has in memory, or 0 where it is gone."""
    try:
        with open(f"/proc/{pid}/statm", encoding="ascii") as file:
            return int(file.read().split()[1]) * os.sysconf("SC_PAGESIZE")
    except (OSError, IndexError):
        return 0


class Run:
    """One run: what was asked, and what came of it so far."""

    def __init__(self, folder, said):
        self.folder, self.said, self.process = folder, said, None

    def path(self, name):
        return os.path.join(self.folder, name)

    def keep(self):
        write(self.path(META) + ".new", json.dumps(self.said))
        os.replace(self.path(META) + ".new", self.path(META))

    def is_running(self):
        return self.process is not None

    def short(self):
        """Returns what the list of runs shows."""
        ended = self.said.get("ended")
        shown = {name: self.said.get(name) for name in ("name", "command", "status", "began", "how")}
        shown["running"] = self.is_running()
        shown["seconds"] = (ended or time.time()) - self.said["began"]
        shown["memory"] = memory_of(self.process.pid) if self.process else 0
        shown["answer"] = text_of(self.path(ANSWER)).split("\n", 1)[0][:200] if ended else ""
        return shown

    def whole(self):
        """Returns all that is known of it."""
        shown = self.short()
        question = {"cells": text_of(self.path("cells")), "options": self.said["options"]}
        answer = text_of(self.path(ANSWER))
        shown.update(question=question, answer=answer, said=text_of(self.path(SAID)))
        if self.said.get("status") in (0, 1, 10, 20, 30):
            shown["says"], shown["leaves_out"] = asked.says(self.said["command"], question["cells"], question["options"], self.said["status"], answer)
        shown["proof"] = os.path.getsize(self.path(PROOF)) if os.path.exists(self.path(PROOF)) else 0
        return shown


class Runs:
    """All runs of a folder."""

    def __init__(self, folder, program, most=None):
        self.folder, self.program = folder, program
        self.most = most or os.cpu_count() or 1
        self.lock = threading.Lock()
        self.all = {}
        for name in sorted(os.listdir(folder) if os.path.isdir(folder) else []):
            meta = os.path.join(folder, name, META)
            if os.path.isfile(meta):
                with open(meta, encoding="utf-8") as file:
                    run = Run(os.path.dirname(meta), json.load(file))
                self.all[name] = run
                if "ended" not in run.said:
                    self.end(run, None, STOPPED)

    def command_line(self, command, options):
        """Returns the words of a run's process, which runs in its folder."""
        if command == "spread":
            return [sys.executable, os.path.join(TOOLS, "page", "spreading.py"), self.program, QUESTION, PROOF, ANSWER, *options]
        second = PATTERN if command == "judge" else PROOF
        return [self.program, command, QUESTION, second, *options]

    def begin(self, command, cells, given, inputs=(), effort=None):
        """Begins a run of a question. `inputs` are further files, by name, and `effort` what is said of how it is searched."""
        with self.lock:
            if sum(run.is_running() for run in self.all.values()) >= self.most:
                raise TooMany
            name = f"{max((int(known) for known in self.all), default=0) + 1:04}"
            run = Run(os.path.join(self.folder, name), {"name": name, "command": command, "options": given, "began": time.time()})
            os.makedirs(run.folder)
            self.all[name] = run
            options = asked.options_of(command, {**given, **(effort or {})})
            write(run.path("cells"), cells)
            write(run.path(QUESTION), asked.line_of(given) + cells)
            for file, text in inputs:
                if isinstance(text, bytes):
                    with open(run.path(file), "wb") as out:
                        out.write(text)
                else:
                    write(run.path(file), text)
            run.keep()
            with open(run.path(ANSWER), "wb") as answer, open(run.path(SAID), "wb") as said:
                run.process = subprocess.Popen(self.command_line(command, options), cwd=run.folder, stdin=subprocess.DEVNULL, stdout=answer, stderr=said, start_new_session=True)
        threading.Thread(target=self.wait, args=(run,), daemon=True).start()
        return run

    def wait(self, run):
        status = run.process.wait()
        with self.lock:
            how = STOPPED if run.said.get("stopping") or status < 0 else None
            self.end(run, None if how else status, how)

    def end(self, run, status, how):
        """Notes how a run ended. One that was stopped leaves its question, and nothing half."""
        run.process = None
        run.said.pop("stopping", None)
        run.said.update(ended=time.time(), status=status, how=how)
        if how == STOPPED:
            for name in (PROOF, ANSWER) if run.said["command"] != "check" else (ANSWER,):
                if os.path.exists(run.path(name)):
                    os.remove(run.path(name))
            shutil.rmtree(run.path("pieces"), ignore_errors=True)
        run.keep()

    def stop(self, run):
        """Ends a run's processes, and waits for them."""
        with self.lock:
            process = run.process
            if process is None:
                return
            run.said["stopping"] = True
        # It may have ended by itself just now.
        with contextlib.suppress(ProcessLookupError):
            os.killpg(process.pid, signal.SIGTERM)
            try:
                process.wait(5)
            except subprocess.TimeoutExpired:
                os.killpg(process.pid, signal.SIGKILL)
        while run.is_running():
            time.sleep(0.01)

    def forget(self, run):
        """Stops a run and removes what is there of it."""
        self.stop(run)
        with self.lock:
            self.all.pop(run.said["name"], None)
            shutil.rmtree(run.folder, ignore_errors=True)

    def stop_all(self):
        for run in list(self.all.values()):
            self.stop(run)
