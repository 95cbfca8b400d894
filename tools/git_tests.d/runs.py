"""git's test scripts, run with gixcfg in the place of `git config`."""

import os
import re
import subprocess
from pathlib import Path
from typing import NamedTuple

HERE = Path(__file__).resolve().parent
# A line of a test; of one that is skipped, as `ok 35 # skip NAME (missing SANITY)`, the name stands behind another word.
LINE = re.compile(r"(?P<fails>not )?ok (?P<number>\d+) (?:- (?P<name>.*)|# skip (?P<skipped>.*) \(.*\))")
PLAN = re.compile(r"1\.\.(\d+)")


class Test(NamedTuple):
    number: int
    name: str
    outcome: str  # passes, fails or is skipped
    text: str  # the words of the test, of one that fails


class Run(NamedTuple):
    tests: list
    planned: int  # how many the script says it has at its end, or None if it didn't come to that


def front_in(directory, built, gixcfg):
    """Makes the directory that comes first on the path of the tests."""
    directory.mkdir()
    for name, target in (("git", HERE / "git"), ("git-gixcfg", HERE / "git-gixcfg"), ("built", built), ("gixcfg", gixcfg)):
        (directory / name).symlink_to(target)
    return directory


def told(lines):
    """What a script told in the form of TAP: the words of a test that fails follow its line as comments."""
    tests, planned = [], None
    for line in lines:
        plan, found = PLAN.fullmatch(line), LINE.fullmatch(line)
        if plan:
            planned = int(plan[1])
        elif found:
            outcome = "fails" if found["fails"] else "is skipped" if found["name"] is None else "passes"
            tests.append(Test(int(found["number"]), (found["name"] or found["skipped"] or "").strip(), outcome, ""))
        elif line.startswith("#\t") and tests and tests[-1].outcome == "fails":
            tests[-1] = tests[-1]._replace(text=tests[-1].text + line[2:] + "\n")
    return Run(tests, planned)


def run_script(script, built, front, room):
    """Runs a script. Its repositories stand in a directory that lies in no repository, since gixcfg looks for one up to the root."""
    own = {name: value for name, value in os.environ.items() if not name.startswith("GIT_")}
    own |= {"GIT_TEST_INSTALLED": str(front), "GIT_TEST_EXEC_PATH": str(built), "TEST_OUTPUT_DIRECTORY": str(room)}
    ran = subprocess.run(["sh", f"./{script}", f"--root={room}", "--no-color"], cwd=built / "t", env=own, stdin=subprocess.DEVNULL,
                         stdout=subprocess.PIPE, stderr=subprocess.STDOUT, text=True, errors="replace", check=False)
    return told(ran.stdout.splitlines())
