"""Transcripts through another program of the script language, whose differences are listed with their reasons.

The list (rows/DIFFERENCES.txt) has groups that an empty line ends. A group begins with its reason, in lines that begin with
`#`, and goes on with differences: a line `in FILE: TITLE` names a transcript, and each difference in it is the command, our
answer, and theirs, as transcripts have them.
"""

import re
from typing import NamedTuple

from plain import tell_end
from process import Ended
from words import Malformed, hex_word, to_transcript

# Commands that another program need not have. Where it has none, the test case is passed over.
BEYOND = {"name", "valuename", "keeps", "loadkept", "setkey", "stringkey", "printfail", "printnone", "refusals", "reset",
          "sectionkey", "sectionif", "bynameif", "headerof", "valueof", "implicitof", "valuesof", "namesof", "hasname",
          "countof", "entriesof", "display", "rawwith", "rawswith", "flag", "tryflag", "flags", "flagwith", "flagswith",
          "removeif", "renameif", "editid", "metaof", "level", "place", "frompath", "paths", "overrides", "failread",
          "failtrust"}

# Of these, the ones that change the file.
CHANGES = {"loadkept", "removeif", "renameif", "editid", "level", "frompath", "paths", "overrides"}

# Of these, the ones that change what later commands answer, also those that load.
LASTING = {"failread", "failtrust"}

# Commands by a key, and the one by names that stands for each.
BY_NAMES = {"stringkey": "string", "setkey": "setraw"}

# These load a file anew, so that both programs have the same one again.
LOADS = {"load", "lossy", "new", "reset", "owned", "globals", "fromenv", "gitdir"}

HAS_NONE = {"refused", "unknown"}

KEY = re.compile(r"(stringkey|setkey) x((?:[0-9a-f]{2})*)((?: .*)?)")


class Difference(NamedTuple):
    """A test case that the other program answers otherwise."""

    file: str
    title: str
    command: str
    ours: str
    theirs: str

    def __str__(self):
        return f"in {self.file}: {self.title}\n{self.command}\n  {self.ours}\n  {self.theirs}"


class _Reader:
    """What was read of the list so far."""

    def __init__(self):
        self.differences = set()
        self._has_reason = False
        self._transcript = None
        self._lines = []

    def take(self, line):
        if not line:
            self._close()
        elif line.startswith("#"):
            self._has_reason = True
        elif line.startswith("in "):
            file, colon, title = line[3:].partition(": ")
            if not colon:
                raise Malformed("a transcript is named by `in FILE: TITLE`")
            self._transcript = (file, title)
        else:
            self._lines.append(line)
            if len(self._lines) == 3:
                self._add()

    def _add(self):
        command, ours, theirs = self._lines
        if not self._has_reason or self._transcript is None:
            raise Malformed("a difference has a reason and a transcript above it")
        if not (ours.startswith("  ") and theirs.startswith("  ")):
            raise Malformed("a difference is a command, our answer and theirs")
        self.differences.add(Difference(*self._transcript, command, ours[2:], theirs[2:]))
        self._lines = []

    def _close(self):
        if self._lines:
            raise Malformed("a difference is a command, our answer and theirs")
        self._has_reason = False
        self._transcript = None


def read_differences(path):
    """The listed differences, or none where there is no list."""
    reader = _Reader()
    if not path.exists():
        return reader.differences
    lines = path.read_text(encoding="utf-8").split("\n")
    for number, line in enumerate(lines + [""], 1):
        try:
            reader.take(line)
        except Malformed as fault:
            raise Malformed(f"{path.name}:{number}: {fault}") from fault
    return reader.differences


def run(transcripts, start, listed, report):
    """Compares each test case, and then tells the listed differences that are gone."""
    comparison = _Comparison(listed, report)
    for transcript in transcripts:
        comparison.run(transcript, start)
    files = {transcript.file for transcript in transcripts}
    for difference in sorted(listed - comparison.seen):
        if difference.file in files:
            report.fault(f"a listed difference is gone:\n{difference}")
    report.tell(f"{len(comparison.seen)} listed differences were seen")
    for word in sorted(comparison.passed_over):
        report.tell(f"passed over: {comparison.passed_over[word]:5} of {word}")


def _asked(row):
    """The test case's command, by names where it is by a key that has a dot."""
    by_key = KEY.fullmatch(row.sent)
    if by_key is None:
        return row.sent
    section, dot, rest = bytes.fromhex(by_key.group(2)).partition(b".")
    subsection, second_dot, name = rest.rpartition(b".")
    if not dot:
        return row.sent
    names = [hex_word(section), hex_word(subsection) if second_dot else "-", hex_word(name)]
    return " ".join([BY_NAMES[row.word], *names]) + by_key.group(3)


class _Comparison:
    """What was seen of the transcripts so far."""

    def __init__(self, listed, report):
        self.seen = set()
        self.passed_over = {}
        self._listed = listed
        self._report = report
        self._is_same_file = True
        self._is_same_outside = True

    def run(self, transcript, start):
        """Compares the test cases of a transcript."""
        done, program = 0, None
        self._is_same_file = True
        self._is_same_outside = True
        try:
            program = start()
            for row in transcript.rows:
                self._take(transcript, row, program.ask(_asked(row)))
                done += 1
        except Ended as fault:
            tell_end(transcript.rows, done, fault, self._report)
        finally:
            if program is not None:
                program.kill()

    def _take(self, transcript, row, answer):
        """Compares the test case with the other program's answer, or passes it over."""
        if row.wanted == "unknown" or (answer in HAS_NONE and row.word in BEYOND and answer != row.answer):
            # One of the two programs has done it, the other hasn't.
            self._is_same_file = self._is_same_file and row.word not in CHANGES and answer in HAS_NONE
            self._is_same_outside = self._is_same_outside and row.word not in LASTING
            self._pass_over(row.word)
            return
        self._is_same_file = self._is_same_file or (row.word in LOADS and answer == "ok")
        if not self._is_same_outside:
            self._pass_over("test cases behind what the other program wasn't told")
        elif self._is_same_file:
            self._compare(transcript, row, answer)
        else:
            self._pass_over("test cases whose file the other program hasn't")

    def _pass_over(self, word):
        self.passed_over[word] = self.passed_over.get(word, 0) + 1

    def _compare(self, transcript, row, answer):
        difference = Difference(row.file, transcript.title, row.command, row.wanted, to_transcript(answer))
        if answer == row.answer:
            self._report.row_passed()
        elif difference in self._listed:
            self.seen.add(difference)
            self._report.row_passed()
        else:
            self._report.fault(f"{row.place}: a difference that isn't listed:\n{difference}")
