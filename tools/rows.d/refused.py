"""Transcripts under refused allocations.

Each command is given with its first allocation refused, then its second, and so on until none is (tools/refuse.c). Behind each
of these the answer is `err E27` and the file as it was; the last answer is the transcript's.
"""

import re
from typing import NamedTuple

from plain import tell_end
from process import Ended
from transcripts import Row
from words import to_transcript

# A command with more allocations than this has none to be refused one by one.
MOST_ALLOCATIONS = 20000

OUT_OF_MEMORY = "err E27"

# Calls that write into a vector: it is the writer that fails, behind a beginning of the text.
WRITERS = {"printif", "printfail", "printnone"}

# Commands that begin a scope, up to `end`. No command about the file may stand in it.
SCOPES = {"edit", "editid", "editnew", "editdetached", "value", "multi"}

# What is asked about the file.
STATE = ["print", "dump", "count"]


def as_before(before, _done, after):
    return after == before


def first_done(before, done, after):
    """The first words of the sections are those of the whole edit, and the others as before."""
    before, done, after = (state[1].split(" ") for state in (before, done, after))
    return len(after) == len(before) == len(done) and any(
        after == done[:count] + before[count:] for count in range(len(after) + 1))


def new_section_at_most(before, _done, after):
    """There may be one section more, without entries."""
    return re.fullmatch(re.escape(before[1]) + r"( \[\d+ x[0-9a-f]* (-|x[0-9a-f]*) \])?", after[1]) is not None


def sections_stay(before, _done, after):
    """All sections stay, in their order. (How far the files that were inserted reach is told by no command.)"""
    sections = iter(_sections_of(after))
    return all(section in sections for section in _sections_of(before))


def _sections_of(state):
    return re.findall(r"\[\d+ ([^\]]*)\]", state[1])


# Commands that change a file in place, and what holds of it behind a refused allocation: `before` and `done` are what is told of
# the file before the command and behind it, `after` behind the error. Such a command may leave room that it asked for, and a
# second try would ask for less. So each allocation is refused behind the commands before it, which are done anew. The same holds
# for all commands in scopes. Behind any other command all is as before.
EDITS = {
    "setraw": as_before,
    "setkey": as_before,
    "setexisting": as_before,
    "remove": as_before,
    "removeif": as_before,
    "removeid": as_before,
    "rename": as_before,
    "renameif": as_before,
    # These drop what they were given; the file is as before.
    "append": as_before,
    "pushsection": as_before,
    # These keep the entries, or sections, that were done before.
    "setmulti": first_done,
    "setvalues": first_done,
    "setall": first_done,
    # These may leave a new section without entries.
    "newsection": new_section_at_most,
    "editnew": new_section_at_most,
    # This keeps the files that were inserted before.
    "resolve": sections_stay,
}


class Fault(Exception):
    """What was got in place of what is right."""


class Session:
    """The program behind the first commands of a transcript. `start` makes one, with variables for the shim."""

    def __init__(self, rows, start, shim):
        self._rows = rows
        self._start = start
        self._shim = shim
        self._program = None

    def begin(self, count, first=1):
        """A new program, behind so many commands. It will refuse the allocation of this number first."""
        self.kill()
        self._program = self._start(self._shim.by_command(first))
        for row in self._rows[:count]:
            self._program.ask(row.sent)

    def kill(self):
        if self._program is not None:
            self._program.kill()
            self._program = None

    def finish(self):
        self._program.finish()

    def ask(self, row):
        return self._program.ask(row.sent)

    def state(self, is_in_scope=False):
        """What is told of the file. A scope is left for it."""
        if is_in_scope:
            self._program.ask("end")
        return self._program.ask_all(STATE)

    def give(self, row, then_ask=()):
        """Gives a command with an allocation of it refused; then asks these. Answers whether one was refused, and the answers."""
        lines = ["refusals on", row.sent, "refusals off", *then_ask]
        answers = self._program.ask_all(lines)
        for at in (0, 2):
            if answers[at] not in ("ok", "- ok"):
                raise Fault(f"{answers[at]} to {lines[at]}")
        mark, _, answer = answers[1].partition(" ")
        if mark not in ("-", "+"):
            raise Fault(f"{answers[1]}, without a word that tells whether an allocation was refused")
        return mark == "+", answer, answers[3:]


class Place(NamedTuple):
    """A command, how many stand before it, and whether it begins and ends in a scope."""

    row: Row
    at: int
    begins_in_scope: bool
    ends_in_scope: bool


def _places_of(rows):
    places, in_scope = [], False
    for at, row in enumerate(rows):
        # `value` is a command of scopes too.
        behind = row.word != "end" if in_scope else row.word in SCOPES and row.wanted != "unknown"
        places.append(Place(row, at, in_scope, behind))
        in_scope = behind
    return places


def turns_on(transcript):
    """Whether a transcript turns refusals on itself."""
    return any(row.word == "refusals" for row in transcript.rows)


def ends_in_scope(rows):
    """Whether a scope is open behind these test cases."""
    return bool(rows) and _places_of(rows)[-1].ends_in_scope


def run(transcripts, start, shim, report, table):
    """Runs each transcript through programs that `start` makes, but for those that turn refusals on themselves."""
    for transcript in transcripts:
        if turns_on(transcript):
            report.tell(f"{transcript.rows[0].place}: passed over, since it turns refusals on itself: {transcript.title}")
            continue
        session = Session(transcript.rows, start, shim)
        try:
            _run_one(transcript.rows, session, report, table)
        finally:
            session.kill()


def _run_one(rows, session, report, table):
    done = 0
    try:
        session.begin(0)
        for place in _places_of(rows):
            try:
                table.add(place.row.word, _refuse(session, place))
                report.row_passed()
            except Fault as fault:
                report.row_failed(place.row, fault)
                session.begin(done + 1)
            done += 1
        session.finish()
    except Ended as fault:
        tell_end(rows, done, fault, report)


def _refuse(session, place):
    """Refuses each allocation of the command, and leaves the session behind it. Answers how many were refused."""
    if place.begins_in_scope and not place.ends_in_scope:
        return _give_once(session, place.row)
    if place.ends_in_scope or place.row.word in EDITS:
        return _refuse_afresh(session, place)
    return _refuse_again(session, place.row)


def _give_once(session, row):
    """Gives a command that only ends a scope."""
    _check_last(row, session.ask(row), 0)
    return 0


def _refuse_again(session, row):
    """Gives the command again and again."""
    before = session.state()
    for number in range(MOST_ALLOCATIONS):
        was_refused, answer, after = session.give(row, STATE)
        if not was_refused:
            _check_last(row, answer, number)
            return number
        _check_error(row, answer, number + 1)
        _check_state(row, (before, None, after), number + 1)
    raise Fault(f"more than {MOST_ALLOCATIONS} allocations")


def _refuse_afresh(session, place):
    """Gives the command for each of its allocations to a new program, behind the commands before it."""
    row = place.row
    before = _state_behind(session, place.at, place.begins_in_scope)
    done = _state_behind(session, place.at + 1, place.ends_in_scope)
    for number in range(MOST_ALLOCATIONS):
        session.begin(place.at, first=number + 1)
        was_refused, answer, _ = session.give(row)
        if not was_refused:
            _check_last(row, answer, number)
            return number
        _check_error(row, answer, number + 1)
        after = session.state(place.ends_in_scope)
        # A call that can do without the allocation has done all. Want of memory may come sooner than where it is the test case's own answer.
        has_done_all = answer == row.answer and answer != OUT_OF_MEMORY
        _check_state(row, (done if has_done_all else before, done, after), number + 1)
    raise Fault(f"more than {MOST_ALLOCATIONS} allocations")


def _state_behind(session, count, is_in_scope):
    session.begin(count)
    return session.state(is_in_scope)


def _check_last(row, answer, refused):
    if answer != row.answer:
        raise Fault(f"{to_transcript(answer)}, when {refused} allocations had been refused one by one")


def _check_error(row, answer, number):
    """The answer is want of memory, or the full one where the call can do without."""
    if answer == row.answer or is_want_of_memory(row, answer):
        return
    raise Fault(f"{to_transcript(answer)}, with allocation {number} refused")


def is_want_of_memory(row, answer):
    """Whether the answer is want of memory: by its number, or as the fault of a vector that is the writer."""
    return answer == OUT_OF_MEMORY or row.word in WRITERS and _is_beginning(answer, row.answer)


def _is_beginning(answer, full):
    """Whether the writer's fault tells a beginning of the full text."""
    start, _, text = answer.rpartition(" ")
    return start == "err E28" and full.rpartition(" ")[2].startswith(text)


def _check_state(row, states, number):
    """What is told of the file before the command, behind it and behind the error fits together."""
    before, _, after = states
    if EDITS.get(row.word, as_before)(*states):
        return
    differing = [
        f"\n    {command} was   {to_transcript(old)}\n    {command} is    {to_transcript(new)}"
        for command, old, new in zip(STATE, before, after) if old != new]
    raise Fault(f"another file, with allocation {number} refused:" + "".join(differing))
