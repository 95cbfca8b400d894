"""Runs of the program `gixcfg`: its words and streams, and its status, output and error.

A run is a line `gixcfg WORDS [in PARTS] [< INPUT] [> OUTPUT] [2> ERROR]`, and behind two spaces on the next line
`STATUS OUTPUT ERROR [leaves FILES]`.
rows/README.md has the form of each of them.
"""

import re
from typing import Dict, List, NamedTuple, Optional

from gixcfg_folder import KINDS, Entry
from words import Malformed, QUOTED, quote, unquote

_TOKEN = re.compile(rf"{QUOTED}|[^ \"]+")


class Input(NamedTuple):
    """Standard input: a text, or a directory where there is none."""

    text: Optional[bytes]
    step: int = 0
    fails: bool = False
    stays_unread: bool = False


class Output(NamedTuple):
    """Standard output or error: with room for so many bytes, or where that is None for all."""

    room: Optional[int] = None
    is_full: bool = False


class Run(NamedTuple):
    """A run of the program."""

    words: List[bytes]
    entries: List[Entry]
    variables: Dict[bytes, Optional[bytes]]
    input: Input
    out: Output
    err: Output

    @property
    def has_locked(self):
        """Whether a file without rights stands in its directory."""
        return any(entry.kind == "locked" for entry in self.entries)

    @property
    def is_huge(self):
        """Whether a file of its directory is too long to be read at once."""
        return any(entry.kind == "sparse" for entry in self.entries)

    @property
    def is_plain(self):
        """Whether no stream fails or is slow, and no file is huge."""
        given = self.input
        return (given.text is not None and given == Input(given.text, stays_unread=given.stays_unread)
                and self.out == self.err == Output()
                and not self.is_huge and not any(entry.kind == "pipe" for entry in self.entries))


class Left(NamedTuple):
    """A file that a run leaves: its text, and the bits of its mode."""

    text: bytes
    mode: Optional[int] = None


class Ending(NamedTuple):
    """How a run ends: its status, what it wrote, and what its directory has; None for what can't be seen or isn't told."""

    status: str
    out: Optional[bytes]
    err: Optional[bytes]
    files: Optional[Dict[bytes, Left]] = None

    def __str__(self):
        told = [self.status, _shown(self.out), _shown(self.err)]
        if self.files is not None:
            told += ["leaves", *(_shown_file(name, left) for name, left in sorted(self.files.items()))]
        return " ".join(told)

    def is_as(self, wanted):
        """Whether it is a wanted one, of whose files only those are compared that are told."""
        return self[:3] == wanted[:3] and (wanted.files is None or self.has(wanted.files))

    def has(self, files):
        """Whether its directory has these files, and no other. A missing mode stands for any."""
        return self.files.keys() == files.keys() and all(
            left.text == self.files[name].text and left.mode in (None, self.files[name].mode) for name, left in files.items())


def _shown_file(name, left):
    mode = "" if left.mode is None else f" mode {left.mode:o}"
    return f"file {quote(name)} {quote(left.text)}{mode}"


def _shown(text):
    return "-" if text is None else quote(text)


class _Tokens:
    """The words of a line, one after the other."""

    def __init__(self, line, directory):
        self._directory = directory
        self._tokens = _TOKEN.findall(line)
        if " ".join(self._tokens) != line:
            raise Malformed("arguments stand in quotes, with one space between them")

    def next(self):
        if not self._tokens:
            raise Malformed("a word is missing")
        return self._tokens.pop(0)

    def accept(self, *words):
        """Takes these words, where they come next."""
        if self._tokens[:len(words)] != list(words):
            return False
        del self._tokens[:len(words)]
        return True

    def number(self):
        word = self.next()
        if not word.isdigit():
            raise Malformed(f"no number: {word}")
        return int(word)

    def octal(self):
        return int(str(self.number()), 8)

    def ends_with_streams(self):
        """Whether only streams are left, or nothing."""
        return not self._tokens or self._tokens[0] in ("<", ">", "2>")

    def comes_quoted(self):
        return bool(self._tokens) and self._tokens[0].startswith('"')

    def quoted(self):
        if not self.comes_quoted():
            raise Malformed("a word in quotes is missing")
        return unquote(self.next())

    def text(self):
        """A text in quotes, once or several times, or that of a file beside the test cases, where one part may be changed."""
        if self.comes_quoted():
            text = self.quoted()
            return text * self.number() if self.accept("times") else text
        text = _text_of(self._directory / self.next())
        while self.accept("with"):
            old = self.quoted()
            if not self.accept("as") or text.count(old) != 1:
                raise Malformed("`with OLD as NEW`: OLD has to stand in the file once")
            text = text.replace(old, self.quoted())
        return text

    def close(self):
        if self._tokens:
            raise Malformed(f"no word that may stand here: {self._tokens[0]}")


def _text_of(path):
    try:
        return path.read_bytes()
    except OSError as fault:
        raise Malformed(f"no file beside the test cases: {path.name}") from fault


def run_of(line, directory):
    """The run that a line is; `directory` has the files that it names."""
    tokens = _Tokens(line, directory)
    if not tokens.accept("gixcfg"):
        raise Malformed("a run begins with gixcfg")
    words = []
    while tokens.comes_quoted():
        words.append(tokens.quoted())
    entries, variables = _parts_of(tokens) if tokens.accept("in") else ([], {})
    given = _input_of(tokens) if tokens.accept("<") else Input(b"")
    out = _output_of(tokens) if tokens.accept(">") else Output()
    err = _output_of(tokens) if tokens.accept("2>") else Output()
    tokens.close()
    return Run(words, entries, variables, given, out, err)


def _parts_of(tokens):
    """What stands in the directory of the run, and the variables that it has in place of ours."""
    entries, variables = [], {}
    while not tokens.ends_with_streams():
        kind = tokens.next()
        if kind == "set":
            name = tokens.quoted()
            variables[name] = tokens.quoted()
        elif kind == "unset":
            variables[tokens.quoted()] = None
        elif kind == "sparse":
            entries.append(Entry(kind, tokens.quoted(), tokens.number()))
        elif kind == "folder":
            entries.append(Entry(kind, tokens.quoted()))
        elif kind in KINDS:
            entry = Entry(kind, tokens.quoted(), tokens.text())
            entries.append(entry._replace(mode=tokens.octal()) if tokens.accept("mode") else entry)
        else:
            raise Malformed(f"nothing that a directory may have: {kind}")
    return entries, variables


def _input_of(tokens):
    if tokens.accept("folder"):
        return Input(None)
    text = tokens.text()
    if tokens.accept("by"):
        return Input(text, step=tokens.number())
    if tokens.accept("then", "fails"):
        return Input(text, fails=True)
    return Input(text, stays_unread=tokens.accept("unread"))


def _output_of(tokens):
    if tokens.accept("full"):
        return Output(is_full=True)
    if tokens.accept("room"):
        return Output(room=tokens.number())
    raise Malformed("an output is `full` or `room N`")


def ending_of(line, directory):
    """The ending that a line is."""
    tokens = _Tokens(line, directory)
    status = str(tokens.number())
    out, err = (None if tokens.accept("-") else tokens.text() for _ in range(2))
    files = _files_of(tokens) if tokens.accept("leaves") else None
    tokens.close()
    return Ending(status, out, err, files)


def _files_of(tokens):
    """The files that a directory has in the end."""
    files = {}
    while tokens.accept("file"):
        name = tokens.quoted()
        files[name] = Left(tokens.text(), tokens.octal() if tokens.accept("mode") else None)
    return files
