"""git's source of one version, from Debian's archive, built as far as the tests of `git config` need it."""

import os
import shutil
import subprocess
import tarfile
import tempfile
from pathlib import Path

VERSION = "2.47.3"
ARCHIVE = f"git_{VERSION}.orig.tar.xz"
KEYS = "/usr/share/keyrings/debian-archive-keyring.gpg"
SOURCES = f"Types: deb-src\nURIs: http://deb.debian.org/debian\nSuites: trixie\nComponents: main\nSigned-By: {KEYS}\n"
# What the tests need of git, and no more: neither scripts nor what asks for further libraries. It isn't optimized, which takes a third of
# the time; what the tests take is to start processes.
MAKE = ["CFLAGS=-O0 -w", "NO_CURL=1", "NO_OPENSSL=1", "NO_GETTEXT=1"]
TARGETS = ["git", "t/helper/test-tool", "GIT-BUILD-OPTIONS"]


class Lacking(Exception):
    """Why git can't be had here."""


class Unbuilt(Exception):
    """Why its source can't be built, though all that it needs is here."""


def run(*words, cwd):
    return subprocess.run(words, cwd=cwd, stdin=subprocess.DEVNULL, stdout=subprocess.PIPE, stderr=subprocess.STDOUT, text=True,
                          errors="replace", check=False)


def asked_of_apt(room, *words):
    """Asks apt for something with sources, lists and a cache of its own in this directory, so that the machine's stay as they are."""
    ran = run("apt-get", *words, "-q", "-o", f"Dir::Etc::sourcelist={room}/trixie.sources", "-o", "Dir::Etc::sourceparts=-",
              "-o", f"Dir::State::lists={room}/lists", "-o", f"Dir::Cache={room}/cache", "-o", "APT::Sandbox::User=root",
              "-o", "APT::Update::Error-Mode=any", "-o", "Acquire::Retries=1", "-o", "Acquire::http::Timeout=20", cwd=room)
    if ran.returncode != 0:
        raise Lacking("apt-get: " + (ran.stdout.strip().splitlines() or ["failed"])[-1])


def fetch(room):
    """Puts the archive of the source into the directory. apt holds it to the sum that Debian's signed list has."""
    (room / "trixie.sources").write_text(SOURCES, encoding="utf-8")
    for name in ("lists/partial", "cache"):
        (room / name).mkdir(parents=True)
    asked_of_apt(room, "update")
    asked_of_apt(room, "source", "--tar-only", "git")
    found = sorted(it.name for it in room.glob("git_*"))
    if found != [ARCHIVE]:
        raise Lacking(f"Debian's trixie has {' '.join(found)} by now, and the table is of {ARCHIVE}")


def need(command, package):
    if shutil.which(command) is None:
        raise Lacking(f"{command} isn't installed (Debian's package {package})")


def need_all():
    """Tells what is missing before anything is fetched."""
    need("apt-get", "apt")
    need("make", "make")
    need("cc", "gcc")
    if not Path(KEYS).exists():
        raise Lacking(f"{KEYS} isn't there (Debian's package debian-archive-keyring)")
    if subprocess.run(["cc", "-fsyntax-only", "-x", "c", "-"], input=b"#include <zlib.h>\n", stderr=subprocess.DEVNULL, check=False).returncode:
        raise Lacking("zlib.h isn't installed (Debian's package zlib1g-dev)")


def make(source, *words):
    ran = run("make", *words, cwd=source)
    if ran.returncode != 0:
        raise Unbuilt("make " + " ".join(words) + "\n" + "\n".join(ran.stdout.splitlines()[-20:]))


def git_in(cache, jobs):
    """The directory of the built git below this one. What isn't there is fetched and built aside, and put there whole when it is done."""
    directory = cache / f"git-{VERSION}"
    if directory.exists():
        return directory
    need_all()
    try:
        cache.mkdir(parents=True, exist_ok=True)
        made = tempfile.TemporaryDirectory(dir=cache, prefix="new-")
    except OSError as error:
        raise Lacking(f"{cache} can't be written: {error.strerror}") from error
    with made as name:
        room = Path(name)
        fetch(room)
        with tarfile.open(room / ARCHIVE) as archive:
            archive.extractall(room)
        source = room / directory.name
        make(source, f"-j{jobs}", *MAKE, *TARGETS)
        make(source, "-C", "templates")
        try:
            os.rename(source, directory)
        except OSError:
            # Another clone's gate may have put it there meanwhile.
            if not directory.exists():
                raise
    return directory
