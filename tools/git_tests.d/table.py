"""The table of git's tests that fail, and why: git_tests.d/table.txt."""

import re
from typing import NamedTuple

SCRIPT = re.compile(r"script (t\d{4}-[\w-]+\.sh) (\d+)")
REASON = re.compile(r"reason (\w[\w-]*): (.+)")
FAILING = re.compile(r"(t\d{4}) (\d+(?:,\d+)*) (\w[\w-]*): (.+)")


class Wrong(Exception):
    """Why a text is no table."""


class Failing(NamedTuple):
    name: str
    reason: str


class Table:
    """The scripts with their numbers of tests, the reasons with their texts, and the tests that fail by script and number."""

    def __init__(self, text):
        self.scripts, self.reasons, self.failing = {}, {}, {}
        for number, line in enumerate(text.splitlines(), 1):
            if line and not line.startswith("#"):
                try:
                    self.put(line)
                except Wrong as wrong:
                    raise Wrong(f"table.txt:{number}: {wrong}: {line}") from None
        unused = self.reasons.keys() - {it.reason for it in self.failing.values()}
        if unused:
            raise Wrong(f"table.txt: no test has this reason: {', '.join(sorted(unused))}")

    def put(self, line):
        script, reason, failing = SCRIPT.fullmatch(line), REASON.fullmatch(line), FAILING.fullmatch(line)
        if script:
            self.scripts[script[1]] = int(script[2])
        elif reason:
            self.reasons[reason[1]] = reason[2]
        elif failing:
            self.put_failing(*failing.groups())
        else:
            raise Wrong("is none of the forms of the table")

    def put_failing(self, short, numbers, reason, name):
        script = self.script_of(short)
        if script is None:
            raise Wrong("no such script")
        if reason not in self.reasons:
            raise Wrong("no such reason")
        for number in map(int, numbers.split(",")):
            if (script, number) in self.failing:
                raise Wrong(f"a second line of {number}")
            self.failing[script, number] = Failing(name, reason)

    def script_of(self, short):
        """The script of a short name, as t1300."""
        return next((it for it in self.scripts if it.startswith(short + "-")), None)

    def fails_of(self, script):
        """How many tests of a script fail."""
        return sum(it == script for it, _ in self.failing)

    def fails_by(self, reason):
        """How many tests fail for a reason."""
        return sum(it.reason == reason for it in self.failing.values())


def faults_of(table, script, run):
    """What a run of a script did otherwise than the table says: for each of its tests, and each line of the table without one, a fault or None."""
    count = table.scripts[script]
    yield None if len(run.tests) == run.planned == count else f"{script}: tells {len(run.tests)} tests and ends with {run.planned}, of {count}"
    lines = {number: line for (it, number), line in table.failing.items() if it == script}
    for test in run.tests:
        place, line = f"{script} {test.number}, {test.name}", lines.pop(test.number, None)
        if line is not None and line.name != test.name:
            yield f"{place}: the table calls it {line.name}"
        elif test.outcome == "fails" and line is None:
            yield f"{place}: fails, and isn't in the table\n{test.text}"
        elif test.outcome == "passes" and line is not None:
            yield f"{place}: passes, and the table says that it fails: {line.reason}"
        else:
            yield None
    for number, line in lines.items():
        yield f"{script} {number}, {line.name}: is in the table, and wasn't run"
