"""Runs of gixcfg of which an allocation is refused, another one at each start of the program.

`rt try --fail-alloc N` has the Nth allocation of a program refused, at each start the same. So each script begins with `grow K`, which takes
K allocations that are granted, and then makes the same runs: the K says which allocation of these is the Nth of all.
"""

from collections import Counter
from typing import List, NamedTuple

import on_machine
from gixcfg_process import Failed
from gixcfg_rows import ProgramRow
from unproved import OUT_OF_MEMORY, Answers

# The allocation that is refused. No other script has as many.
REFUSED = 400_000
OPTIONS = ["--fail-alloc", str(REFUSED)]

# How many starts there are, and how many allocations of the runs lie between the refused ones of two starts.
STARTS = 60
STRIDE = 43


class Fault(Exception):
    """A test case, and what was got in place of what is right."""


class Case(NamedTuple):
    """Runs, and the script that makes them."""

    rows: List[ProgramRow]
    script: List[str]

    @property
    def counts(self):
        """How many lines the script has before the runs, and for each run."""
        return [1, *(len(on_machine.script_of(row.run)) for row in self.rows)]


def cases_of(runs):
    """A script for each start."""
    rows = _chosen(runs)
    lines = [line for row in rows for line in on_machine.script_of(row.run)]
    return [Case(rows, [f"grow {REFUSED - STRIDE * number}", *lines]) for number in range(1, STARTS + 1) if rows]


def _chosen(runs):
    """Of each kind of call that is done, the run that is given most."""
    longest = {}
    for row in runs:
        if row.run.is_plain and row.wanted.status == "0":
            kind = (row.run.words[0], any(word.startswith(b"-") for word in row.run.words), row.sees_files)
            longest[kind] = max(longest.get(kind, row), row, key=lambda row: sum(map(len, on_machine.script_of(row.run))))
    return list(longest.values())


def check(cases, played, report):
    """Checks the answers at each start, and tells how many allocations were refused of what. Answers how many of a call, or None without
    answers."""
    if not played:
        return None
    found, faults = [], Counter()
    for case, answers in zip(cases, played):
        try:
            found.append(_refused_in(case, answers))
            report.row_passed()
        except Fault as fault:
            faults[fault.args] += 1
    for (row, got), count in faults.items():
        report.row_failed(row, f"{got}, with an allocation refused, at {count} of {len(cases)} starts", count)
    told, ended = found.count("call"), found.count("script")
    report.tell(f"{told + ended} allocations refused in {len(cases)} starts of the same {len(cases[0].rows)} runs of gixcfg: "
                f"{told} of a call that told so, {ended} around the calls; the others weren't needed or didn't come")
    return told


def _refused_in(case, played):
    """What was refused at a start: an allocation of a `call`, one of the `script` around them, or None."""
    refused = None
    for row, part in zip(case.rows, played.parts(case.counts)[1:]):
        if refused is None and part.fault == OUT_OF_MEMORY:
            return "script"
        got = _ending_in(row, part)
        if refused is None and row.is_out_of_memory(got) and not got.is_as(row.wanted):
            refused = "call"
        elif not got.is_as(row.wanted):
            raise Fault(row.row, str(got))
    return refused


def _ending_in(row, part):
    try:
        return on_machine.ending(row, Answers(part))
    except Failed as fault:
        raise Fault(row.row, f"nothing: {fault}") from fault
