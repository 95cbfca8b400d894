"""Programs that `rt try` compiles of the sources as they are, with nothing proved and the address checker on.

It compiles a program once, and then starts it for each of many inputs. So a script is given whole, and all its answers come
when the program has ended.
"""

import re
import shutil
import subprocess
import tempfile
import threading
from pathlib import Path
from typing import List, NamedTuple, Optional

from process import Ended

# `rt try` runs a program on an interpreter too, which can't read standard input; so it gets no time for that.
QUICK = ["--steps", "1"]

# What is wrong with the end of a script that was out of memory outside of its commands.
OUT_OF_MEMORY = "it ended with status 5"

_CASE = re.compile(r"case=(\S+) run=(\S+)(?: status=(\d+))?")
_CAUSE = re.compile(r"checked: (.*)")


class NotCompiled(Exception):
    """`rt try` started no program."""


class Played(NamedTuple):
    """What a program answered to a script, line by line, and what is wrong with how it ended."""

    answers: List[str]
    fault: Optional[str] = None

    def parts(self, counts):
        """What was answered to each part of the script, of so many lines. A fault is one of the part in which it shows."""
        parts, at = [], 0
        for count in counts:
            answers = self.answers[at:at + count]
            parts.append(Played(answers, None if len(answers) == count else self.fault or "it gave no answer"))
            at += count
        return parts[:-1] + [Played(self.answers[at - counts[-1]:], self.fault or parts[-1].fault)] if parts else []


class Answers:
    """The answers to a part of a script, asked for one by one as those of a `Program`. Behind them come some more."""

    def __init__(self, played, behind=()):
        self._left = list(played.answers)
        self._fault = played.fault
        self._behind = list(behind)

    def ask(self, _line):
        """The answer to the next line."""
        if not self._left:
            raise Ended(self._fault or "it gave no answer")
        return self._left.pop(0)

    def finish(self):
        """All answers were asked for, and those behind them are the right ones."""
        if self._fault:
            raise Ended(self._fault)
        if self._left != self._behind:
            raise Ended(f"it printed {self._left} behind its answers, and not {self._behind}")

    def kill(self):
        """There is nothing to end."""


class Trial:
    """A program of the sources, compiled once, and started for each of some scripts. `played` counts those that have ended; the `name`
    says what they are."""

    def __init__(self, name, crate, scripts, limit, options=()):
        self._crate = crate
        self._scripts = scripts
        self._options = [*QUICK, "--seconds", str(max(1, int(limit))), *options]
        self.name = name
        self.count = len(scripts)
        self.played = 0

    def play(self):
        """What the program answered to each of the scripts, in their order."""
        names = [f"{number:04}" for number in range(self.count)]
        with tempfile.TemporaryDirectory() as directory:
            for name, lines in zip(names, self._scripts):
                (Path(directory) / name).write_text("".join(line + "\n" for line in lines), encoding="utf-8")
            printed, told = self._run(directory)
        answers, faults = _answers_in(printed, names), _faults_in(told)
        if not faults:
            raise NotCompiled(f"rt try started nothing in {self._crate}:\n{told.strip()}")
        return [Played(answers.get(name, []), faults.get(name, "it wasn't started")) for name in names]

    def _run(self, directory):
        """What `rt try` prints and tells. Scripts are counted as they are told."""
        rt = shutil.which("rt")
        if rt is None:
            raise NotCompiled("there is no command rt on the PATH")
        told = []
        with subprocess.Popen(
                [rt, "try", *self._options, "--cases", directory], cwd=self._crate, stdin=subprocess.DEVNULL,
                stdout=subprocess.PIPE, stderr=subprocess.PIPE, encoding="utf-8", errors="replace") as process:
            listener = threading.Thread(target=self._listen, args=(process.stderr, told))
            listener.start()
            printed = process.stdout.read()
            listener.join()
        return printed, "".join(told)

    def _listen(self, stream, told):
        for line in stream:
            told.append(line)
            self.played += line.startswith("case=")


def _answers_in(printed, names):
    """The lines that were printed of each script, behind a line `== NAME`."""
    answers, lines, known = {}, [], set(names)
    for line in printed.split("\n")[:-1]:
        if line.startswith("== ") and line[3:] in known:
            lines = answers[line[3:]] = []
        else:
            lines.append(line)
    return answers


def _faults_in(told):
    """What is wrong with the end of each script that was started, or None. A cause stands before the line of its script."""
    faults, why = {}, None
    for line in told.split("\n"):
        cause, case = _CAUSE.match(line), _CASE.match(line)
        if cause:
            why = cause[1]
        elif case:
            faults[case[1]] = _fault_of(case, why)
            why = None
    return faults


def _fault_of(case, why):
    _, run, status = case.groups()
    if run == "ended":
        return None if status == "0" else f"it ended with status {status}"
    return f"{run}: {why}"
