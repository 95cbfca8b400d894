"""The programs that are measured, how they are built or found, and what they tell.

Each class is a column of docs/benchmarks.md: what it is asked for are the words of `crates/bench`, for a call within a process, and
those of `gixcfg`, for a process.
"""

import os
import re
import shlex
import shutil
import subprocess
import time
from pathlib import Path
from typing import NamedTuple

import texts

HERE = Path(__file__).resolve().parent
TOP = HERE.parent.parent
REGISTRY = Path("/usr/share/cargo/registry")
"""Where Debian's packages put the crates that the one for Rust stands on."""
NEW_VALUE = "//new.test/value.git"
FEW_KEY = "user.name"
"""A key that the file of some lines has, and one of the files of the repository."""
ONE_KEY = "a.k"
"""The key of the file in which all entries are of one key."""
URL, URL_KEY = "https://host7.test/", "http.proxy"
"""One of the URLs that have a section each, and a key of all these sections."""
# The C library copies and searches by instructions that it chooses by the processor, and some processors count a copy by its bytes.
# Without these choices it does the same on each that runs our programs.
SAME_EVERYWHERE = {"GLIBC_TUNABLES": "glibc.cpu.hwcaps=-AVX2,-AVX512F,-AVX_Fast_Unaligned_Load,-ERMS"}


def rounds_of(what):
    """How often a process does what is timed, of which the last counts: three times, so that it has its memory, and of loads
    eight times, since the C library gives large blocks back until it has seen a few; but values are set and pushed in a file
    that the process has just loaded, as a program does that edits one."""
    return {"set": 1, "push": 1, "load": 8, "lossy": 8}.get(what, 3)


class Missing(Exception):
    """A program that isn't there, or doesn't run."""


class Files(NamedTuple):
    """The files of a measure: the text, another one to compare it with, one that is edited, each time a copy of the text, a text that
    includes, one of some lines, and the directory of a repository; then those of commands whose growth alone is held: entries of one
    key, sections for URLs, a file that includes others, and the directory of these."""
    text: Path
    other: Path
    edited: Path
    including: Path
    small: Path
    repository: Path
    one_key: Path
    urls: Path
    includes: Path
    included: Path

    @classmethod
    def below(cls, work):
        return cls(*(work / name for name in cls._fields))

    def in_repository(self, words):
        """A process in the repository, whose user and system have a file each."""
        own = {"HOME": str(self.repository), "GIT_CONFIG_SYSTEM": str(self.repository / "system"), "XDG_CONFIG_HOME": str(self.repository)}
        return Command(words, directory=self.repository / "work", environment=own)


class Command(NamedTuple):
    """The words of a process, the file that is its standard input, where it runs, and what its environment has besides."""
    words: list
    stdin: Path = Path(os.devnull)
    directory: Path = None
    environment: dict = {}

    def surroundings(self):
        """What the process is given beside its words and its input."""
        return {"cwd": self.directory, "env": {**os.environ, **self.environment}}


def out(command, **streams):
    """What a command writes to standard output."""
    try:
        run = subprocess.run(command, stdout=subprocess.PIPE, stderr=subprocess.PIPE, check=False, **streams)
    except OSError as error:
        raise Missing(str(error)) from error
    if run.returncode != 0:
        raise Missing(f"{command[0]} ended with {run.returncode}: {run.stderr.decode(errors='replace')[-300:]}")
    return run.stdout.decode()


def under():
    """What the programs run under."""
    return shlex.split(os.environ.get("RUN", ""))


def nanos(command):
    """The nanoseconds that a process tells of its last round."""
    with open(command.stdin, "rb") as text:
        told = out([*under(), *command.words], stdin=text)
    return int([line for line in told.splitlines() if line.isdecimal()][-1])


def wall(command):
    """The nanoseconds of a whole process, which writes to nowhere. It may end with status 1."""
    given = command.surroundings()
    with open(command.stdin, "rb") as text:
        start = time.perf_counter_ns()
        run = subprocess.run([*under(), *command.words], stdin=text, stdout=subprocess.DEVNULL, close_fds=False, check=False, **given)
        taken = time.perf_counter_ns() - start
    if run.returncode not in (0, 1):
        raise Missing(f"{command.words[0]} ended with {run.returncode}")
    return taken


def instructions(command):
    """How many instructions a process takes, by callgrind, on any machine. It may end with status 1."""
    counter = ["valgrind", "--tool=callgrind", "--callgrind-out-file=/dev/null"]
    if not shutil.which("valgrind"):
        raise Missing("there is no program valgrind, which counts instructions")
    with open(command.stdin, "rb") as text:
        run = subprocess.run([*counter, *command.words], stdin=text, stdout=subprocess.DEVNULL, stderr=subprocess.PIPE, check=False,
                             cwd=command.directory, env={**os.environ, **command.environment, **SAME_EVERYWHERE})
    found = re.search(rb"Collected : (\d+)", run.stderr)
    if run.returncode not in (0, 1) or not found:
        raise Missing(f"{command.words[0]} under valgrind: {run.stderr.decode(errors='replace')[-300:]}")
    return int(found[1])


def instructions_of_call(program, what, file, key):
    """How many instructions a call takes in a process that has done it once before. Of lines that are pushed the load is left out with
    which each round begins."""
    def of_second(word):
        once, twice = (instructions(program.call(word, rounds, key, file)) for rounds in (1, 2))
        return twice - once
    taken = of_second(what) - (of_second("load") if what == "push" else 0)
    return taken // {"look-up": 256, "push": 100000}.get(what, 1)


def peak(command):
    """The most bytes of memory that a process had, or `None` where it refuses the text."""
    if not shutil.which("time"):
        raise Missing("there is no program time, which tells the memory of a process")
    with open(command.stdin, "rb") as text:
        run = subprocess.run([shutil.which("time"), "-q", "-f", "peak %M", *command.words], stdin=text, stdout=subprocess.DEVNULL,
                             stderr=subprocess.PIPE, check=False)
    last = run.stderr.decode(errors="replace").strip().split("\n")[-1].split()
    if last[:1] != ["peak"]:
        raise Missing(f"time told no peak of {command.words[0]}")
    return int(last[1]) * 1024 if run.returncode in (0, 1) else None


class Program:
    """What the columns share."""

    calls = ()
    """The words of the calls that it has."""

    processes = ()
    """The commands of gixcfg of which it has one of its own."""

    one_load = 1
    """How many rounds of `load` are one load."""

    is_counted = True
    """Whether its instructions say something."""

    misreads = False
    """Whether it reads another value than there is."""

    def call(self, what, rounds, key, file):
        """The process that makes a call so many times, if it has that."""
        raise NotImplementedError

    def process(self, what, files, key):
        """The process that does what a command of gixcfg does, if it has that."""
        raise NotImplementedError

    def nanos(self, what, file, key, rounds=None):
        """The nanoseconds of a call, the last of so many; as often as `rounds_of` says where left out."""
        return nanos(self.call(what, rounds or rounds_of(what), key, file))


class Ours(Program):
    """The programs of a checkout in which they are built."""

    calls = ("events", "load", "lossy", "look-up", "in-text", "print", "set", "push", "lay-out", "include")
    processes = ("get", "list", "set", "fmt", "diff", "check", "get of few", "list of all", "get of all", "unset all", "get by url",
                 "list with includes")
    one_load = 0

    def __init__(self, top=TOP):
        self.top = Path(top)

    @property
    def name(self):
        return " ".join(out([self.program("gixcfg"), "--version"]).split()[:2])

    def program(self, name):
        path = self.top / "crates" / name / "out" / name
        if not path.exists():
            raise Missing(f"{path} is not built: rt ci {name}")
        return path

    def call(self, what, rounds, key, file):
        return Command([self.program("bench"), what, str(rounds), key, "times"], file)

    def process(self, what, files, key):
        words, text = {
            "get": (["get", "-f", files.text, key], os.devnull),
            "list": (["list", "-f", files.text], os.devnull),
            "set": (["set", "-f", files.edited, key, NEW_VALUE], os.devnull),
            "fmt": (["fmt"], files.text),
            "diff": (["diff", files.text, files.other], os.devnull),
            "check": (["check", files.text], os.devnull),
            "get of few": (["get", "-f", files.small, FEW_KEY], os.devnull),
            "list of all": (["list", "--effective"], None),
            "get of all": (["get", "--effective", FEW_KEY], None),
            "unset all": (["unset", "-f", files.one_key, "--all", ONE_KEY], os.devnull),
            "get by url": (["get", "-f", files.urls, "--url", URL, URL_KEY], os.devnull),
            "list with includes": (["list", "--includes", "-f", files.includes], os.devnull),
        }[what]
        words = [self.program("gixcfg"), *words]
        return Command(words, text) if text else files.in_repository(words)


class Theirs(Program):
    """The Rust crate's driver, with the program bench.rs beside it."""

    name = "gix-config 0.60.0"
    calls = ("events", "load", "lossy", "look-up", "print", "set", "push", "lay-out", "include")
    one_load = 0

    def __init__(self, oracle, work):
        copy = Path(work) / "oracle"
        shutil.copytree(oracle, copy)
        for directory, _, _ in os.walk(copy):
            os.chmod(directory, 0o755)
        programs = copy / "oracle/src/bin"
        programs.mkdir(exist_ok=True)
        shutil.copy(HERE / "bench.rs", programs / "bench.rs")
        driver = out(["sh", copy / "build.sh"], env={**os.environ, "CARGO_TARGET_DIR": str(Path(work) / "target")})
        self.path = Path(driver.split()[-1]).parent / "bench"

    def call(self, what, rounds, key, file):
        return Command([self.path, what, str(rounds), key, file])


class Git(Program):
    """A git, which is only measured as a process."""

    processes = ("get", "list", "set", "get of few", "list of all", "get of all")

    def __init__(self, path="git"):
        self.path = path
        self.name = out([path, "--version"]).strip().replace(" version", "")

    def process(self, what, files, key):
        file, words = {
            "get": (files.text, ["--get", key]),
            "list": (files.text, ["--list"]),
            "set": (files.edited, [key, NEW_VALUE]),
            "get of few": (files.small, ["--get", FEW_KEY]),
            "list of all": (None, ["--list"]),
            "get of all": (None, ["--get", FEW_KEY]),
        }[what]
        if file is None:
            return files.in_repository([self.path, "config", *words])
        return Command([self.path, "config", "-f", file, *words])


class Binding(Program):
    """A library over the one for C, which lies in out/lib."""

    calls = ("load", "look-up")
    one_load = 0

    def call(self, what, rounds, key, file):
        return Command([*self.words, what, str(rounds), key, file])


def library_for_c(top):
    """The directory of the library for C."""
    if not (top / "out/lib/libgix_config.a").exists():
        raise Missing(f"{top}/out/lib has no library: tools/c_library")
    return top / "out/lib"


class InC(Binding):
    """That library itself."""

    name = "from C"

    def __init__(self, work, top=TOP):
        self.words = [Path(work) / "in_c"]
        library = library_for_c(top)
        out(["cc", "-O2", f"-I{library}", HERE / "in_c.c", library / "libgix_config.a", "-o", *self.words])


class InRust(Binding):
    """The crate for Rust, by the program of the Rust crate, whose names it has but for those of events."""

    name = "from Rust"

    def __init__(self, work, top=TOP):
        crate, target = Path(work) / "binding", Path(work) / "binding-target"
        shutil.copytree(top / "bindings/rust", crate, ignore=shutil.ignore_patterns("target", "Cargo.lock"))
        shutil.copy(HERE / "bench.rs", crate / "examples/bench.rs")
        (crate / ".cargo").mkdir()
        (crate / ".cargo/config.toml").write_text(
            f'[source.crates-io]\nreplace-with = "debian"\n\n[source.debian]\ndirectory = "{REGISTRY}"\n', encoding="utf-8")
        given = {"GIX_CONFIG_LIBRARY": str(library_for_c(top)), "CARGO_TARGET_DIR": str(target), "RUSTFLAGS": "--cfg binding"}
        out(["cargo", "build", "--release", "--example", "bench"], cwd=crate, env={**os.environ, **given})
        self.words = [target / "release/examples/bench"]


class Libgit2(Program):
    """The program libgit2.c. The first load of a process is its fastest, so no process is asked for more."""

    calls = ("load", "look-up")
    processes = ("get", "list", "set")

    def __init__(self, work):
        self.path = Path(work) / "libgit2"
        out(["cc", "-O2", HERE / "libgit2.c", "-o", self.path, "-lgit2"])
        self.name = f"libgit2 {out([self.path, 'version']).strip()}"

    def call(self, what, rounds, key, file):
        words = {"load": [file], "look-up": [file, key]}[what]
        return Command([self.path, what, str(rounds), *words])

    def nanos(self, what, file, key, rounds=None):
        return super().nanos(what, file, key, 1 if what == "load" else rounds)

    def process(self, what, files, key):
        words = {"get": [files.text, key], "list": [files.text], "set": [files.edited, key, NEW_VALUE]}[what]
        return Command([self.path, what, *words])


class PythonReader(Program):
    """A library of Python, by the program python_reader, run by the Python that has it: Debian's, unless PYTHON names another one.
    A process loads once, and looks up 100,000 times. Whether it reads right is seen on a small text of the same form."""

    calls = ("load", "look-up")
    is_counted = False

    def __init__(self, library, work):
        self.words = [os.environ.get("PYTHON", "/usr/bin/python3"), HERE / "python_reader", library]
        self.name = out([*self.words, "version"]).strip()
        small = Path(work) / "small"
        small.write_bytes(texts.remotes(6))
        self.misreads = not self.reads(small, "remote.name-5.url", "https://a.test/5.git")

    def reads(self, file, key, value):
        try:
            return out([*self.words, "get", key, file]).strip() == value
        except Missing:
            return False

    def call(self, what, rounds, key, file):
        return Command([*self.words, what, key, file])
