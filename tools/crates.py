#!/usr/bin/env -S python3 -B
"""What stands on what, by crates.txt.

    tools/crates.py --below CRATE ..     these crates and all that they stand on, a name a line
    tools/crates.py --above CRATE ..     these crates and all that stand on them
"""
import argparse
import os
import shutil
import subprocess
import sys

TOP = os.path.dirname(os.path.dirname(os.path.realpath(__file__)))


def lines():
    """The lines of crates.txt, by their crates."""
    with open(os.path.join(TOP, "crates.txt"), encoding="utf-8") as file:
        return {line.partition(":")[0].split()[0]: line for line in file if ":" in line.partition("#")[0]}


def named(line):
    """The crates that a line names after its own."""
    return line.partition("#")[0].partition(":")[2].split()


def below(names):
    """These crates and all that they stand on."""
    listed, found = lines(), list(names)
    for name in found:
        found += [it for it in named(listed[name]) if it in listed and it not in found]
    return found


def above(names):
    """These crates and all that stand on them."""
    listed, found = lines(), list(names)
    for name in found:
        found += [it for it, line in listed.items() if name in named(line) and it not in found]
    return found


def files_of(name):
    """The files that a crate is proved of."""
    for part in ("src", "specs", "proofs"):
        for directory, _, files in os.walk(os.path.join(TOP, "crates", name, part)):
            yield from (os.path.join(directory, file) for file in files)


def changed(names):
    """When a source of these crates was last changed."""
    return max((os.path.getmtime(file) for name in names for file in files_of(name)), default=0)


def copy_into(room, names, left_out=("out", "must-fail")):
    """Copies these crates, but for some of their directories, so that they are a repository."""
    listed = lines()
    for name in names:
        copy = os.path.join(room, "crates", name)
        shutil.copytree(os.path.join(TOP, "crates", name), copy, copy_function=shutil.copyfile, ignore=shutil.ignore_patterns(*left_out))
        # (a clone that can't be written has directories that can't)
        for directory, _, _ in os.walk(copy):
            os.chmod(directory, 0o755)
    with open(os.path.join(room, "crates.txt"), "w", encoding="utf-8") as file:
        file.writelines(listed[name] for name in names)
    shutil.copyfile(os.path.join(TOP, "HANDLES"), os.path.join(room, "HANDLES"))
    # (so it is the top of a repository, as rt wants it)
    os.mkdir(os.path.join(room, ".git"))


def library(top, name):
    """Where the proved library of a crate of a repository is."""
    return os.path.join(top, "crates", name, "out", "rlib")


def link(directory, to):
    """Gives the files of a directory second names, so that a command may remove what it replaces."""
    shutil.copytree(directory, to, copy_function=os.link)


def left_by_gate(names):
    """The directory of the library of each of these crates, as `rt ci` left it in this clone in a gate that began, and passed, since a source was
    changed; else None. (The libraries may be older: what was kept has the time at which it was proved.)"""
    directories = {name: library(TOP, name) for name in names}
    return directories if is_of_gate(names) and all(map(os.path.isdir, directories.values())) else None


def is_of_gate(names):
    """Whether a gate began in this clone, and its proofs passed, since a source of these crates was changed."""
    proved = os.path.join(TOP, "out", "proved")
    return os.path.exists(proved) and os.path.getmtime(proved) > changed(names)


def take_from_gate(room, names):
    """Gives the copies of these crates in a room the libraries that `rt ci` left of them, which are all that they stand on, and tells whether it
    did. `rt ci` gives them no stamp by which rt would take them, so they get it here."""
    left = left_by_gate(names)
    if left is None:
        return False
    for name, directory in left.items():
        link(directory, library(room, name))
    toolchain = os.path.dirname(os.path.realpath(shutil.which("rt")))
    subprocess.run([sys.executable, "-B", "-c", STAMPING, toolchain, *names], cwd=room, check=True)
    return True


# Marks the libraries of crates of a repository as those of their sources.
STAMPING = """
import os, sys
sys.path.insert(0, sys.argv[1])
import rtlib
for crate in rtlib.crates_below(os.getcwd()):
    if crate.name in sys.argv[2:]:
        with open(f"{crate.folder}/out/rlib/stamp", "w") as file:
            file.write(crate.stamp())
"""


def main():
    about = argparse.ArgumentParser(description=__doc__, formatter_class=argparse.RawDescriptionHelpFormatter)
    way = about.add_mutually_exclusive_group(required=True)
    way.add_argument("--below", nargs="+", metavar="CRATE")
    way.add_argument("--above", nargs="+", metavar="CRATE")
    options = about.parse_args()
    unknown = [name for name in options.below or options.above if name not in lines()]
    if unknown:
        return f"crates.txt has no crate {unknown[0]}"
    print(*(below(options.below) if options.below else above(options.above)), sep="\n")
    return 0


if __name__ == "__main__":
    sys.exit(main())
