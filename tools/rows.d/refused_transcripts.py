"""Transcripts of which one allocation is refused: that of the same number, wherever in the transcript that is.

`rt try --fail-alloc N` has the Nth allocation of a program refused, at each start the same. So other transcripts have another allocation refused.
"""

import itertools

import refused
from unproved import OUT_OF_MEMORY
from words import to_transcript

# The allocation that is refused, and how many transcripts of each file have it refused.
REFUSED = 120
OPTIONS = ["--fail-alloc", str(REFUSED)]
EACH = 2


def chosen(transcripts):
    """The longest transcripts of each file, but for those that turn refusals on themselves."""
    plain = [transcript for transcript in transcripts if not refused.turns_on(transcript)]
    files = itertools.groupby(plain, lambda transcript: transcript.file)
    return [transcript for _, group in files for transcript in sorted(group, key=lambda it: len(it.rows), reverse=True)[:EACH]]


def check(transcripts, played, report):
    """Checks the answers to each, and tells how many allocations were refused of what. Answers how many of a command, or None without
    answers."""
    if not played:
        return None
    found = [_check_one(transcript.rows, answers, report) for transcript, answers in zip(transcripts, played)]
    told, ended = found.count("command"), found.count("script")
    report.tell(f"{told + ended} allocations refused in {len(transcripts)} transcripts: {told} of a command that told so, "
                f"{ended} between commands; the others weren't needed or didn't come")
    return told


def _check_one(rows, played, report):
    """Counts a transcript. Answers what was refused: an allocation of a `command`, one of the `script` between them, or None."""
    answers = played.answers
    at = next((at for at, (row, answer) in enumerate(zip(rows, answers)) if answer != row.answer), None)
    if at is None and len(answers) < len(rows) and played.fault == OUT_OF_MEMORY:
        report.row_passed()
        return "script"
    if at is not None and not refused.is_want_of_memory(rows[at], answers[at]):
        report.row_failed(rows[at], f"{to_transcript(answers[at])}, with allocation {REFUSED} refused")
        return None
    if played.fault or len(answers) != len(rows):
        fault = played.fault or f"{len(answers)} answers to {len(rows)} commands"
        report.row_failed(rows[0], f"{fault}, with allocation {REFUSED} of its transcript refused")
        return None
    report.row_passed()
    return None if at is None else "command"
