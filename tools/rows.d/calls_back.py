"""Looks whether the texts that calls of `gixcfg` write are read by it: those of the test cases, and of made calls."""

import itertools
import os
from concurrent.futures import ThreadPoolExecutor

from gixcfg_process import Failed, ending
from gixcfg_rows import read_rows
from gixcfg_runs import Input, Output, Run
from words import quote

# What these commands print is a text.
WRITERS = (b"set", b"unset", b"rename-section", b"remove-section", b"fmt", b"print")

TEXTS = (
    b"", b"[a]\n\tk = 1\n", b"  [a]\n k = 1\n[b]", b"\xef\xbb\xbf\t[a] k = v", b"# c\n [a]\r\nk=1\r\n[b]\r\n \r\n", b"k = x\\\n[a \"b\"]\n\tk\n\tk = \"x;\" ; d\n",
    b"[a.b \"c\"]\nK = 1\nk = x\\", b"[A.B]\n[a.b]\nj=1\nk=1 # c", b"\n\n[ \"b\"]\nk=\\\n", b" ; c\n\t[a]k\n[a] k = 2\n")
KEYS = (b"a.k", b"A.K", b"a.b.k", b"a.b.c.k", b".k", b".b.k", b"..k", b"a..k", b"a.\n.k", b"-.k", b"a b.k", b"a.1")
VALUES = (b"", b" v ", b"x\\", b"a\"b\ny", b"#;", b"[x]\r")
NAMES = (b"a", b"a.b", b"", b".b", b".", b"c d", b"a.]\"\\")


def read_back(program, path, limit, report):
    """Looks at each text that a test case writes, and at those of made calls."""
    texts = {text: row.row.place for row in read_rows(path) for text in _written(row)}
    with ThreadPoolExecutor(os.cpu_count()) as workers:
        for text, is_read in zip(texts, workers.map(lambda text: _reads(program, text, limit), texts)):
            _tell(report, is_read, f"{texts[text]}: {quote(text)} is refused")
        calls = list(itertools.product(TEXTS, _calls()))
        for (text, words), left in zip(calls, workers.map(lambda call: _left(program, *call, limit), calls)):
            shown = " ".join(quote(word) for word in words)
            _tell(report, left is None, f"gixcfg {shown} < {quote(text)}: {left}")


def _tell(report, is_right, fault):
    if is_right:
        report.row_passed()
    else:
        report.fault(fault)


def _written(row):
    """The texts that a test case writes."""
    words, wanted = row.run.words, row.wanted
    if wanted.status != "0" or not row.run.is_plain:
        return
    if words[:1] and words[0] in WRITERS and wanted.out and not any(word.startswith(b"--check") for word in words):
        yield wanted.out
    given = {entry.name: entry.content for entry in row.run.entries}
    for name, left in (wanted.files or {}).items():
        if left.text != given.get(name):
            yield left.text


def _calls():
    """The words of made calls."""
    for key in KEYS:
        for value in VALUES:
            yield (b"set", key, value)
            yield (b"set", b"-f", b"-", key, value)
        yield from ((b"set", b"--append", key, b"v"), (b"set", b"--all", key, b"v"), (b"set", b"--comment", b"c", key, b"v"))
        yield from ((b"unset", key), (b"unset", b"--all", key))
    for name in NAMES:
        yield (b"remove-section", name)
        yield from ((b"rename-section", name, other) for other in NAMES)


def _left(program, text, words, limit):
    """What is wrong with the text that a call leaves of another one; nothing if it is none, or is read."""
    got = _end(program, words, text, limit)
    if got is None:
        return "no end"
    if got.status == "0" and not _reads(program, got.out, limit):
        return f"{quote(got.out)} is refused"
    return None


def _reads(program, text, limit):
    """Whether a text is read."""
    got = _end(program, (b"print",), text, limit)
    return got is not None and got.status == "0"


def _end(program, words, text, limit):
    """How a call of these words ends, if it does."""
    try:
        return ending(program, Run(list(words), [], {}, Input(text), Output(), Output()), limit)
    except Failed:
        return None
