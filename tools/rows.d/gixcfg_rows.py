"""The test cases of `gixcfg`, run as they stand and under refused allocations."""

import itertools
import os
from concurrent.futures import ThreadPoolExecutor

from gixcfg_process import Failed, ending
from gixcfg_runs import Left, ending_of, run_of
from transcripts import read
from words import Malformed

# Calls that take one file after the other.
OF_FILES = (b"check", b"diff", b"fmt")

# What is told where memory is wanting.
OUT_OF_MEMORY = b"gixcfg: E27\n"


class ProgramRow:
    """A test case with the run and the ending that its lines are."""

    def __init__(self, row, directory):
        try:
            self.run = run_of(row.command, directory)
            self.wanted = ending_of(row.wanted, directory)
        except Malformed as fault:
            raise Malformed(f"{row.place}: {fault}") from fault
        self.row = row

    @property
    def sees_files(self):
        """Whether it tells what its directory has in the end."""
        return self.wanted.files is not None

    def is_out_of_memory(self, got):
        """Whether it ends so where memory is wanting: its files are as they were, and nothing else is told. But a call of several
        files has told of the first ones what it found there, and done them."""
        ended = (got.status, got.out) == ("5", b"") and (got.err or b"").endswith(OUT_OF_MEMORY)
        return ended and self._is_told(got.err[:-len(OUT_OF_MEMORY)]) and (not self.sees_files or self._has_first_done(got))

    @property
    def _named(self):
        """The files that a call of several files names, in their order."""
        verb, *words = self.run.words or [b""]
        named = [word for word in words if not word.startswith(b"-")]
        return named if verb in OF_FILES and len(named) > 1 else []

    def _is_told(self, told):
        """Whether these are the first lines that it tells on standard error; none, if it isn't a call of several files."""
        return told == b"" or bool(self._named) and told.endswith(b"\n") and (self.wanted.err or b"").startswith(told)

    def _has_first_done(self, got):
        """Whether the first files that it names, so many as may be, are as wanted, and the others as they were given."""
        given = {entry.name: Left(entry.content) for entry in self.run.entries if entry.kind in ("file", "locked")}
        states = [{**given, **{name: self.wanted.files[name] for name in self._named[:done] if name in self.wanted.files}}
                  for done in range(len(self._named) + 1)]
        return any(got.has(files) for files in states)


def read_rows(path):
    """The test cases of a file of runs."""
    return [ProgramRow(row, path.parent) for transcript in read(path) for row in transcript.rows]


def run(rows, end, report):
    """Makes each run. `end` makes one, and answers how it ends."""
    for row in rows:
        try:
            got = end(row)
        except Failed as fault:
            report.row_failed(row.row, f"nothing: {fault}")
            continue
        if got.is_as(row.wanted):
            report.row_passed()
        else:
            report.row_failed(row.row, got)


def refuse(rows, program, limit, shim, report, table):
    """Makes each run whose streams don't fail with its first allocation refused, then its second, until none is."""
    rows = [row for row in rows if row.run.is_plain]
    # Each run is a process of its own, so that each processor has one.
    with ThreadPoolExecutor(os.cpu_count()) as workers:
        answers = workers.map(lambda row: _refuse_one(row, program, limit, shim), rows)
        for row, (fault, refused) in zip(rows, answers):
            table.add("gixcfg", refused)
            if fault is None:
                report.row_passed()
            else:
                report.row_failed(row.row, fault)


def _refuse_one(row, program, limit, shim):
    """What was got in place of what is right, and how many allocations were refused."""
    for number in itertools.count(1):
        variables = shim.whole_process(number)
        try:
            got = ending(program, row.run, limit, variables, row.sees_files)
        except Failed as fault:
            return f"nothing: {fault}", number - 1
        was_refused = shim.was_refused(variables)
        if not got.is_as(row.wanted) and not (was_refused and row.is_out_of_memory(got)):
            return f"{got}, with allocation {number} refused" if was_refused else got, number - 1
        if not was_refused:
            return None, number - 1
