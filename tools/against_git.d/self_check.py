"""Shows by false programs that what differs from git is told: another order, value, place or count, and an error."""

import re
import subprocess
import sys
import tempfile
from pathlib import Path

TREES = 20

# A program that is called as git_listing is, and tells what git tells, but for FAULT.
SPEAKER = r"""#!PYTHON
import subprocess, sys
FAULT = "WRONG"
directory = ["--git-dir", sys.argv[2]] if sys.argv[2:] else []
told = subprocess.run(["git", *directory, "config", "--list", "-z", "--show-origin", "--includes"], stdout=subprocess.PIPE)
pieces = told.stdout.split(b"\0")[:-1]
if told.returncode or (FAULT == "refused" and pieces):
    sys.exit(1)
if FAULT == "order": pieces[:2], pieces[-2:] = pieces[-2:], pieces[:2]
if FAULT == "value" and pieces: pieces[-1] += b"x"
if FAULT == "place" and pieces: pieces[-2] += b"x"
if FAULT == "count": del pieces[-2:]
sys.stdout.buffer.write(b"".join(piece + b"\0" for piece in pieces))
"""


def run(tool, known):
    """Checks each false program, and closes with their count. One that tells what git tells has none of the known differences."""
    faults = {}
    for fault in ("right", "order", "value", "place", "count", "refused"):
        told = _told(tool, SPEAKER.replace("PYTHON", sys.executable).replace("WRONG", fault))
        failed = int(re.search(r"(\d+) failed\n$", told).group(1))
        is_told = failed == known if fault == "right" else failed > known + TREES
        if not is_told or "in place of" not in told:
            faults[fault] = told
    for fault, told in faults.items():
        print(f"against_git: a program that is wrong by {fault}: it told\n{told}")
    print(f"{6 - len(faults)} passed, {len(faults)} failed")
    return 1 if faults else 0


def _told(tool, source):
    """What the tool tells of a program with this source."""
    with tempfile.TemporaryDirectory() as directory:
        program = Path(directory) / "program"
        program.write_text(source)
        program.chmod(0o700)
        ran = subprocess.run([sys.executable, str(tool), "--trees", str(TREES), "--program", str(program)], stdout=subprocess.PIPE)
    return ran.stdout.decode("utf-8", "replace")
