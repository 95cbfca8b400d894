"""The table of docs/benchmarks.md: a row for each call and each process, a column for each program that is here and does it."""

import itertools
import os
import shutil
import statistics
import sys
from concurrent.futures import ThreadPoolExecutor
from typing import NamedTuple

from programs import (Files, Git, InC, InRust, Libgit2, Missing, NEW_VALUE, Ours, PythonReader, Theirs, instructions,
                      instructions_of_call, out, peak, wall)
import texts

UNITS = {"s": 1e9, "ms": 1e6, "µs": 1e3, "ns": 1}


def in_turns(rounds, tasks):
    """What each of the tasks answers, so many times, in turns."""
    answers = {name: [] for name in tasks}
    for _ in range(rounds):
        for name, task in tasks.items():
            answers[name].append(task())
    return answers


def spelled(nanos):
    """A time in the unit that suits it."""
    unit = next((unit for unit, size in UNITS.items() if nanos >= size), "ns")
    number = nanos / UNITS[unit]
    return f"{number:.0f} {unit}" if number >= 100 or unit == "ns" else f"{number:.3g} {unit}"


def counted(many):
    """A number of instructions."""
    return f"{many / 1e6:.1f} M" if many >= 1e5 else f"{many:,}"


class Call(NamedTuple):
    """A call within a process, by the word of the program `bench`."""
    what: str
    name: str
    is_counted: bool = True

    def is_done_by(self, program):
        return self.what in program.calls

    def text(self, files):
        return files.including if self.what == "include" else files.text

    def nanos(self, program, files, key):
        return program.nanos(self.what, self.text(files), key)

    def count(self, program, files, key):
        return instructions_of_call(program, self.what, self.text(files), key)

    def command(self, program, files, key):
        """A process that makes the call once, if it is a load."""
        return program.call(self.what, program.one_load, key, files.text)


class Process(NamedTuple):
    """A whole process, by the command of `gixcfg`."""
    what: str
    name: str
    is_counted: bool = True

    def is_done_by(self, program):
        return self.what in program.processes

    def command(self, program, files, key):
        if self.what == "set":
            shutil.copy(files.text, files.edited)
        return program.process(self.what, files, key)

    def nanos(self, program, files, key):
        return wall(self.command(program, files, key))

    def count(self, program, files, key):
        return instructions(self.command(program, files, key))


LOAD = Call("load", "full load, an earlier file freed")
LOSSY = Call("lossy", "lossy load, an earlier file freed")
LOOK_UP = Call("look-up", "lookup in a loaded file")
GET = Process("get", "`gixcfg get`")
ROWS = (
    Call("events", "`Events::from_bytes`"),
    LOAD,
    LOSSY,
    LOOK_UP,
    Call("in-text", "lookup in the text, without a file"),
    Call("print", "print"),
    # Its instructions would be what is left of two loads, which vary by more where hashing is random, as in the Rust crate.
    Call("set", "set a value", is_counted=False),
    Call("lay-out", "layout"),
    # (what is timed is less than the process does, so instructions would say something else)
    Call("include", "1,000 includes resolved", is_counted=False),
    GET,
    Process("list", "`gixcfg list`"),
    Process("set", "`gixcfg set`"),
    Process("fmt", "`gixcfg fmt`"),
    Process("diff", "`gixcfg diff`"),
    Process("check", "`gixcfg check`"),
    Process("get of few", "`gixcfg get` in a file of ten lines"),
    Process("list of all", "`gixcfg list --effective`"),
    Process("get of all", "`gixcfg get --effective`"),
)
# Of which the memory is told, too.
MEMORY = {LOAD: "memory of a full load", LOSSY: "memory of a lossy load", GET: "memory of `gixcfg get`"}


def line(*cells):
    """A line of a table of Markdown."""
    return "| " + " | ".join(cells) + " |"


def of_environment(name):
    """What a variable of the environment holds."""
    if not os.environ.get(name):
        raise Missing(f"{name} isn't set")
    return os.environ[name]


def if_here(name, make):
    """A program, or `None` where it isn't here or can't be built, which goes to standard error."""
    try:
        return make()
    except Missing as missing:
        print(f"measure: without {name}: {missing}", file=sys.stderr)
        return None


INCLUDES = 1000
SMALL = b"[core]\n\tbare = false\n[user]\n\tname = Ada\n\temail = ada@a.test\n[alias]\n\tci = commit\n\tco = checkout\n\tst = status\n[pull]\n\trebase = true\n"


def rust_crate(work):
    return if_here("the Rust crate", lambda: Theirs(of_environment("ORACLE"), work))


def programs_of(crate, work, other_git):
    """The programs that are here, ours first, and the Rust crate's behind it where there is one."""
    others = [
        crate,
        if_here("git", Git),
        if_here("a second git", lambda: Git(other_git or of_environment("GIT2"))),
        if_here("libgit2", lambda: Libgit2(work)),
        if_here("dulwich", lambda: PythonReader("dulwich", work)),
        if_here("GitPython", lambda: PythonReader("gitpython", work)),
    ]
    return [Ours(), *filter(None, others)]


def bindings(work):
    """The libraries over ours that are here."""
    found = [
        if_here("the library for C", lambda: InC(work)),
        if_here("the crate for Rust", lambda: InRust(work)),
        if_here("the package for Python", lambda: PythonReader("gixcfg", work)),
    ]
    return list(filter(None, found))


def counts_of(row, programs, files, key):
    """The instructions of a row by their programs: none without valgrind, and none of what an interpreter does."""
    if not row.is_counted or not shutil.which("valgrind"):
        return {}
    able = [program for program in programs if program.is_counted]
    # One after another where they edit one file.
    with ThreadPoolExecutor(1 if row.what == "set" else os.cpu_count()) as pool:
        return dict(zip(able, pool.map(lambda program: row.count(program, files, key), able)))


def cell(times, count):
    """The best time and the median, where it was timed, and the instructions, where they were counted."""
    timed = [f"{spelled(min(times))} ({spelled(statistics.median(times))})"] if times else []
    return ", ".join(timed + ([counted(count)] if count is not None else []))


def time_and_count(row, programs, files, key, rounds):
    """The cells of a row."""
    able = [program for program in programs if row.is_done_by(program) and not program.misreads]
    times = in_turns(rounds, {program: (lambda program=program: row.nanos(program, files, key)) for program in able})
    counts = counts_of(row, able, files, key)
    for program in programs:
        if program in able:
            yield cell(times[program], counts.get(program))
        else:
            yield "misread" if row.is_done_by(program) else ""


def memory(row, programs, files, key):
    """The cells of a row's memory at the peak, beyond what the same process has for an empty file."""
    empty = files.text.with_name("empty")
    empty.write_bytes(b"")
    for program in programs:
        if row.is_done_by(program) and not program.misreads:
            of_text, of_nothing = (peak(row.command(program, files._replace(text=text), key)) for text in (files.text, empty))
            yield f"{max(of_text - of_nothing, 0) / 1e6:.1f} MB"
        else:
            yield ""


def key_of_last(sections):
    """A key of the last of so many sections."""
    return f"remote.name-{sections - 1}.url"


def make_repository(repository):
    """A repository with five files of configuration: the system's, the user's, what that includes, its own, and the work tree's."""
    out(["git", "init", "-q", repository / "work"])
    own = repository / "work/.git/config"
    own.write_bytes(own.read_bytes() + b"[extensions]\n\tworktreeConfig = true\n" + texts.remotes(2))
    (repository / "work/.git/config.worktree").write_bytes(b"[core]\n\tsparseCheckout = true\n")
    (repository / "system").write_bytes(b"[core]\n\tpager = less\n")
    (repository / ".gitconfig").write_bytes(SMALL + b"[include]\n\tpath = included\n")
    (repository / "included").write_bytes(b"[commit]\n\tgpgSign = false\n")


def write_files(work, sections):
    """Writes the files that are measured. The other one has another value in its last section."""
    files = Files.below(work)
    files.including.write_bytes(texts.including(sections, INCLUDES, "spread", texts.made(1, 1)))
    files.small.write_bytes(SMALL)
    files.repository.mkdir()
    make_repository(files.repository)
    files.text.write_bytes(texts.remotes(sections))
    files.other.write_bytes(files.text.read_bytes().replace(f"//a.test/{sections - 1}.git".encode(), NEW_VALUE.encode()))
    return files


def write_growing(files, sections):
    """Writes the files of the commands whose growth alone is held: as many entries of one key as sections, as many sections for URLs,
    and a file that includes another one for each twenty."""
    files.one_key.write_bytes(texts.one_key(sections))
    files.urls.write_bytes(texts.urls(sections))
    files.includes.write_bytes(texts.includes(sections // 20))
    files.included.mkdir()
    for number in range(sections // 20):
        (files.included / str(number)).write_bytes(texts.included(number))


def table(programs, rounds, sections, work):
    """The lines of the table, as each is known."""
    files, key = write_files(work, sections), key_of_last(sections)
    yield line("", *(program.name for program in programs))
    yield line(*["---"] * (len(programs) + 1))
    for row in ROWS:
        yield line(row.name, *time_and_count(row, programs, files, key, rounds))
    for binding, row in itertools.product(bindings(work), (LOAD, LOOK_UP)):
        [told] = time_and_count(row, [binding], files, key, rounds)
        yield line(f"{row.name}, {binding.name}", told, *[""] * (len(programs) - 1))
    for row, name in MEMORY.items():
        yield line(name, *memory(row, programs, files, key))
