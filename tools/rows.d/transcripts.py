"""Transcripts: a command, and behind two spaces on the next line its answer."""

from typing import List, NamedTuple

from words import Malformed, to_program


class Row(NamedTuple):
    """A command with the answer that it should have, as they stand in a file."""

    file: str
    line: int
    command: str
    wanted: str

    @property
    def place(self):
        return f"{self.file}:{self.line}"

    @property
    def word(self):
        """The word that the command begins with."""
        return self.command.split(" ", 1)[0]

    @property
    def sent(self):
        """The command as the program reads it."""
        return to_program(self.command)

    @property
    def answer(self):
        """The wanted answer as the program writes it."""
        return to_program(self.wanted)


class Transcript(NamedTuple):
    """Test cases that follow each other. The next transcript starts afresh."""

    file: str
    title: str
    rows: List[Row]


class _Reader:
    """What was read of a file so far."""

    def __init__(self, file):
        self.transcripts = []
        self._file = file
        self._title = ""
        self._rows = []
        self._command = None

    def take(self, number, line):
        """Reads one more line."""
        if line.startswith("  "):
            self._take_answer(line[2:])
        elif self._command is not None:
            raise Malformed("the line before is a command without an answer")
        elif line.startswith("#"):
            self._title = self._title if self._rows else line[1:].strip()
        elif line:
            self._command = (number, line)
        else:
            self._close()

    def _take_answer(self, answer):
        if self._command is None:
            raise Malformed("an answer without a command")
        row = Row(self._file, *self._command, answer)
        # Both are read once here, so that a wrong word is told with its line.
        _ = row.sent, row.answer
        self._rows.append(row)
        self._command = None

    def _close(self):
        """Ends the transcript. One without a title goes by the title before it."""
        if self._rows:
            self.transcripts.append(Transcript(self._file, self._title, self._rows))
            self._rows = []


def read(path):
    """The transcripts of a file."""
    reader = _Reader(path.name)
    lines = path.read_text(encoding="utf-8").split("\n")
    for number, line in enumerate(lines + [""], 1):
        try:
            reader.take(number, line)
        except Malformed as fault:
            raise Malformed(f"{path.name}:{number}: {fault}") from fault
    return reader.transcripts
