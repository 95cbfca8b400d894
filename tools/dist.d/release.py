"""What a release is called, and where its parts are."""
import hashlib
import importlib.machinery
import importlib.util
import os
import re
import shutil
import subprocess
import sys
from pathlib import Path

TOP = Path(__file__).resolve().parents[2]
PROGRAM = TOP / "crates/gixcfg/out/gixcfg"
PROCESSORS = ("x86_64", "aarch64")

# What a crate is proved and compiled of.
PARTS = ("src", "specs", "proofs")


class Lacking(Exception):
    """Something that a release is made of or with isn't here; the text says what, and where it comes from."""


def run(*words, **how):
    """Runs a command, and returns what it writes; where it fails, what it said is raised."""
    ran = subprocess.run(words, stdout=subprocess.PIPE, stderr=subprocess.PIPE, text=True, stdin=subprocess.DEVNULL, **how)
    if ran.returncode:
        raise Lacking(f"{' '.join(map(str, words[:2]))} failed with {ran.returncode}: {(ran.stderr or ran.stdout)[-900:].strip()}")
    return ran.stdout


def tool(name):
    """A tool of this repository, for what it defines."""
    sys.path.insert(0, str(TOP / "tools"))
    loader = importlib.machinery.SourceFileLoader(name, str(TOP / "tools" / name))
    module = importlib.util.module_from_spec(importlib.util.spec_from_loader(name, loader))
    loader.exec_module(module)
    return module


def said_version():
    """What `gixcfg --version` prints: the one place where the version stands, with the logic of the kits that prove the sources."""
    source = TOP / "crates/gixcfg_words/src/lib.rt"
    found = re.search(r'^pub const VERSION: &str = "gixcfg ([\w.+~-]+) \(rattle, logic (\w+)\)\\n";$', source.read_text(encoding="utf-8"), re.MULTILINE)
    if found is None:
        raise Lacking(f"{source} has no line `pub const VERSION: &str = \"gixcfg VERSION (rattle, logic LOGIC)\\n\";`")
    return found.groups()


def version():
    return said_version()[0]


def kit():
    """The directory of the kit."""
    if shutil.which("rt") is None:
        raise Lacking("the kit's command rt is not on the PATH")
    return Path(run("rt", "doc").strip()).parent


def kit_line():
    """The line of the kit that is here, as `rt version` prints it."""
    if shutil.which("rt") is None:
        raise Lacking("the kit's command rt is not on the PATH")
    return run("rt", "version").strip()


def logic_of(kit):
    """The logic that the line of a kit names."""
    return kit.partition(" logic ")[2]


def sum_of(file):
    """The sha256 sum of a file."""
    return hashlib.sha256(file.read_bytes()).hexdigest()


def directory_of(processor):
    """What the directory in the archive for a processor is called."""
    return f"gixcfg-{version()}-{processor}-linux"


def time_of_release():
    """The time that files of a release have: SOURCE_DATE_EPOCH, else that of the last commit."""
    return int(os.environ.get("SOURCE_DATE_EPOCH") or run("git", "-C", str(TOP), "log", "-1", "--format=%ct"))


def sources():
    """The files that the program is proved and compiled of."""
    yield TOP / "crates.txt"
    for crate in (TOP / "crates").iterdir():
        for part in PARTS:
            yield from (path for path in (crate / part).rglob("*") if path.is_file())


def sum_of_sources():
    """The sha256 sum of the files that the program is proved and compiled of, with their paths."""
    found = hashlib.sha256()
    for path in sorted(sources()):
        found.update(f"{path.relative_to(TOP)}\n{sum_of(path)}\n".encode())
    return found.hexdigest()


def source_newer_than(file):
    """A source that was changed after a file was made, if there is one."""
    made = file.stat().st_mtime_ns
    return next((path for path in sources() if path.stat().st_mtime_ns > made), None)


def built_program():
    """The program for x86_64 as the kit linked it, if it is newer than its sources."""
    if not PROGRAM.is_file():
        raise Lacking(f"{PROGRAM.relative_to(TOP)} is not there: ./gixcfg --build makes it")
    newer = source_newer_than(PROGRAM)
    if newer is not None:
        raise Lacking(f"{PROGRAM.relative_to(TOP)} is older than {newer.relative_to(TOP)}: ./gixcfg --build makes it anew")
    return PROGRAM


def built_library():
    """The directory of the library for C as `make lib` left it, if it is newer than its sources."""
    library = tool("c_library")
    if not library.is_made():
        raise Lacking(f"{library.MADE.relative_to(TOP)} has no library for C, or one that is older than its sources: `make lib` makes it")
    return library.MADE
