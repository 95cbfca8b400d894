"""Test cases on programs that `rt try` compiles of the sources, with nothing proved: the transcripts by gix_config_script, the runs of gixcfg by
gixcfg_script, and some of both with an allocation refused.

`rt try` takes most of a second to start a program, so many test cases are joined to a script.
"""

import itertools
import sys
import threading
import time
from collections import Counter
from concurrent.futures import ThreadPoolExecutor

import gixcfg_rows
import on_machine
import plain
import refused
import refused_runs
import refused_transcripts
from unproved import Answers, NotCompiled, Trial

# How long the lines of a script of runs and their answers are together: `rt try` takes no more than a megabyte of answers.
MOST = 500_000

# How many seconds there are between two lines that tell how far all is.
TURN = 15


def run(crates, transcripts, runs, options, report):
    """Runs all test cases that can be run so, and tells how many can't."""
    limit = options.limit
    runs = _that_fit(runs, report)
    files, groups, cases = _by_file(transcripts), _groups_of(runs), refused_runs.cases_of(runs)
    chosen = refused_transcripts.chosen(transcripts)
    answered, refusing, called = _play(report, [
        Trial("transcripts", crates / "gix_config_script", [_script_of(rows) for rows in files], limit),
        Trial("transcripts with an allocation refused", crates / "gix_config_script",
              [[row.sent for row in transcript.rows] for transcript in chosen], limit, refused_transcripts.OPTIONS),
        Trial("runs of gixcfg", crates / "gixcfg_script", [_calls_of(rows) for rows in groups] + [case.script for case in cases], limit,
              refused_runs.OPTIONS)])
    for rows, played in zip(files, answered):
        _check_transcripts(rows, played, report)
    for rows, played in zip(groups, called):
        _check_runs(rows, played, report)
    told = [refused_transcripts.check(chosen, refusing, report), refused_runs.check(cases, called[len(groups):], report)]
    # Those of a single file may be too short.
    if 0 in told and not options.files:
        report.fault("no allocation of a command, or of a call, was refused at all")
    report.tell("not proved: what ran was compiled by rt try of the sources as they are")


def _that_fit(runs, report):
    """The runs that a machine in memory can have. Of the others it is told why not."""
    causes = [on_machine.why_not(row) for row in runs]
    counts = Counter(filter(None, causes))
    if counts:
        told = ", ".join(f"{count} for {cause}" for cause, count in counts.items())
        report.tell(f"{sum(counts.values())} runs of gixcfg need the built program: {told}")
    return [row for row, cause in zip(runs, causes) if cause is None]


def _by_file(transcripts):
    """The transcripts of each file."""
    return [list(group) for _, group in itertools.groupby(transcripts, lambda transcript: transcript.file)]


def _script_of(transcripts):
    """A script of several transcripts, each of which begins anew."""
    return [line for transcript in transcripts for line in [*(row.sent for row in transcript.rows), *_behind(transcript)]]


def _behind(transcript):
    """The lines behind a transcript after which all is as at the start."""
    lines = ["reset"]
    if refused.turns_on(transcript):
        lines.insert(0, "refusals off")
    if refused.ends_in_scope(transcript.rows):
        lines.insert(0, "end")
    return lines


def _groups_of(runs):
    """The runs in groups, of which each is a script."""
    groups, left = [], 0
    for row in runs:
        size = 2 * sum(map(len, on_machine.script_of(row.run))) + 2 * len(row.wanted.out or b"")
        if size > left:
            groups.append([])
            left = MOST
        groups[-1].append(row)
        left -= size
    return groups


def _calls_of(rows):
    return [line for row in rows for line in on_machine.script_of(row.run)]


def _play(report, trials):
    """What each program answered to its scripts, all side by side."""
    ended = threading.Event()
    teller = threading.Thread(target=_tell_progress, args=([trial for trial in trials if trial.count], ended))
    teller.start()
    try:
        with ThreadPoolExecutor(len(trials)) as workers:
            return list(workers.map(lambda trial: _played(trial, report), trials))
    finally:
        ended.set()
        teller.join()


def _played(trial, report):
    """What a program answered to its scripts, or nothing where it can't be compiled, which is told as failed."""
    try:
        return trial.play() if trial.count else []
    except NotCompiled as fault:
        report.fault(f"{trial.name}: {fault}\nThese test cases are left out.")
        return []


def _tell_progress(trials, ended):
    """Tells on standard error how far each is, until all have ended."""
    began = time.monotonic()
    while not ended.wait(TURN):
        told = [f"{trial.name}: {_progress_of(trial)}" for trial in trials]
        print(f"test cases, not proved, {time.monotonic() - began:.0f} s", *told, sep="; ", file=sys.stderr, flush=True)


def _progress_of(trial):
    return f"{trial.played} of {trial.count} scripts" if trial.played else "compiling"


def _check_transcripts(transcripts, played, report):
    """Compares the answers to a script of transcripts."""
    parts = played.parts([len(transcript.rows) + len(_behind(transcript)) for transcript in transcripts])
    answers = (Answers(part, ["ok"] * len(_behind(transcript))) for transcript, part in zip(transcripts, parts))
    plain.run(transcripts, answers.__next__, report)


def _check_runs(rows, played, report):
    """Compares the answers to a script of runs."""
    parts = iter(played.parts([len(on_machine.script_of(row.run)) for row in rows]))
    gixcfg_rows.run(rows, lambda row: on_machine.ending(row, Answers(next(parts))), report)
