"""The program for aarch64: proved and compiled by the kit, and linked by Debian's compiler for that processor.

The kit's rt has no word for another processor, and its rattle has (`rattle help build`). That proves the program's own crate for the
target, over the proved libraries below it: those that ./prove or tools/build left in this clone, where no source is newer,
else those that `rt ci` makes in a copy. The kit has no C library for aarch64, so dist/c/ has the few functions that its own C files
define for x86_64, and gcc links all to glibc.
"""
import os
import shutil
import subprocess
import sys
import tempfile
import time
from pathlib import Path

sys.path.append(str(Path(__file__).resolve().parents[1]))

import crates  # noqa: E402
from release import PROGRAM, TOP, Lacking, built_program, kit, kit_line, run, source_newer_than, sum_of

TARGET = "aarch64-unknown-linux-gnu"
COMPILER = "aarch64-linux-gnu-gcc"
C_FILES = ("host.c", "heap.c")

OUT = TOP / "crates/gixcfg/out/aarch64"
OBJECT, LINKED, STAMP, LOG = OUT / "gixcfg.o", OUT / "gixcfg", OUT / "stamp", OUT / "log"


def lacking_tools():
    """Why the program for aarch64 can't be linked here, if it can't."""
    if shutil.which(COMPILER) is None:
        return f"{COMPILER} isn't installed (Debian's packages gcc-aarch64-linux-gnu and libc6-dev-arm64-cross; tools/packages)"
    return None


def linked_with():
    """The packages whose files come to be in the program, or that write its bytes, each with its version."""
    if shutil.which("dpkg-query") is None:
        return run(COMPILER, "--version").splitlines()[0]
    packages = [f"gcc-{run(COMPILER, '-dumpversion').strip()}-aarch64-linux-gnu", "binutils-aarch64-linux-gnu", "libc6-dev-arm64-cross"]
    return ", ".join(run("dpkg-query", "-W", "-f", "${Package} ${Version}", package) for package in packages)


def libraries(crate="gixcfg"):
    """The libraries below a crate: those of this repository, and those of the kit that they name."""
    ours = [name for name in crates.below([crate]) if name != crate]
    named = {it for name in [crate, *ours] for it in crates.named(crates.lines()[name])}
    return ours, sorted(named.difference(crates.lines()))


def copy_crate(name, room):
    shutil.copytree(TOP / "crates" / name, room / "crates" / name, ignore=shutil.ignore_patterns("out", "must-fail"))


def copy_libraries(room):
    """Puts the libraries below the program into a repository of their own."""
    names = libraries()[0]
    for name in names:
        copy_crate(name, room)
    (room / "crates.txt").write_text("".join(crates.lines()[name] for name in names), encoding="utf-8")
    shutil.copy(TOP / "HANDLES", room)
    # (so it is the top of a repository, as rt wants it)
    (room / ".git").mkdir()


def left_by_ci(top):
    """The directory of each proved library below the program, as `rt ci` leaves them in a repository."""
    return {name: top / "crates" / name / "out/rlib" for name in libraries()[0]}


def left_in_clone():
    """The same of this clone, as ./prove or tools/build left them, if none is missing or older than a source."""
    left = crates.left_by_gate(libraries()[0])
    if left:
        return {name: Path(directory) for name, directory in left.items()}
    built = {name: TOP / "out/libraries" / name for name in libraries()[0]}
    files = [directory / f"{name}.rlib/format" for name, directory in built.items()]
    return built if all(file.exists() and source_newer_than(file) is None for file in files) else None


def words_of(below, root):
    """The words that tell rattle of the program's crate, the libraries below it, and the program logic."""
    words = ["--crate-name", "gixcfg", "src/main.rt"]
    for name in ["std", *crates.named(crates.lines()["gixcfg"])]:
        words += ["--extern", f"{name}={below.get(name, root / 'rlibs')}/{name}.rlib"]
    for directory in [root / "rlibs", *below.values()]:
        words += ["-L", f"dependency={directory}"]
    words += ["--antt-project", f"{root}/rattle/logic/antt-project.json", "--logic-built", f"{root}/logic_built"]
    return [*words, "--links", "gixcfg=", "--target", TARGET, "--toolchain", f"{root}/toolchain"]


def logged(where, *words):
    """Runs a command, what it writes goes to the log, and returns that."""
    ran = subprocess.run(words, cwd=where, stdin=subprocess.DEVNULL, stdout=subprocess.PIPE, stderr=subprocess.STDOUT, text=True, errors="replace")
    with open(LOG, "a", encoding="utf-8") as log:
        log.write(f"== {words[0]} {words[1]}\n{ran.stdout}")
    if ran.returncode:
        raise Lacking(f"the program was not proved and compiled for aarch64: {LOG} has what {words[0]} {words[1]} wrote")
    return ran.stdout


def prove():
    """Proves the program's crate for aarch64, and compiles it to an object."""
    root, began, new = kit(), time.time(), OUT / "new.o"
    print("dist: proves and compiles the program for aarch64, some three minutes on four processors where the libraries are proved",
          file=sys.stderr, flush=True)
    LOG.unlink(missing_ok=True)
    with tempfile.TemporaryDirectory(prefix="gixcfg-aarch64-") as name:
        room = Path(name)
        below = left_in_clone()
        if below is None:
            below = left_by_ci(room)
            copy_libraries(room)
            logged(room, "rt", "ci")
        # (rt ci refuses a crate that crates.txt doesn't have)
        copy_crate("gixcfg", room)
        jobs = str(min(4, os.cpu_count()))
        said = logged(room / "crates/gixcfg", root / "bin/rattle", "build", *words_of(below, root), "--jobs", jobs, "-o", new)
    verdict = [line for line in said.splitlines() if line.startswith("logic=")][-1:]
    if not verdict or not verdict[0].startswith("logic=proved ") or f" target={TARGET} " not in verdict[0]:
        raise Lacking(f"rattle gave no verdict of a proof for aarch64: {LOG} has what it wrote")
    # An edit during the proof is newer than the object.
    os.utime(new, (began, began))
    new.rename(OBJECT)
    print(f"dist: proved and compiled for aarch64 after {time.time() - began:.0f} s", file=sys.stderr, flush=True)


def link():
    """Links the object with the C files. No path of this machine comes into the program: they are named as they lie in their directory."""
    new = OUT / "new"
    run(COMPILER, "-std=c11", "-O2", "-Wall", "-Wextra", "-Werror", "-fPIE", "-pie", "-Wl,-z,relro,-z,now", *C_FILES, OBJECT, "-o", new,
        cwd=TOP / "dist/c")
    new.rename(LINKED)


def stamp():
    """What the program for aarch64 that is kept was made with; where it differs, it is made anew."""
    c_files = [sum_of(TOP / "dist/c" / name) for name in C_FILES]
    return "\n".join([kit_line(), linked_with(), sum_of(PROGRAM), *c_files])


def is_kept():
    """Whether what an earlier call made still stands for these sources."""
    return (all(path.is_file() for path in (OBJECT, LINKED, STAMP)) and STAMP.read_text(encoding="utf-8") == stamp()
            and source_newer_than(OBJECT) is None)


def build():
    """The object for aarch64 and the program that is linked of it, kept from an earlier call or made."""
    lacking = lacking_tools()
    if lacking:
        raise Lacking(lacking)
    built_program()
    if not is_kept():
        OUT.mkdir(exist_ok=True)
        prove()
        link()
        STAMP.write_text(stamp(), encoding="utf-8")
    return OBJECT, LINKED
