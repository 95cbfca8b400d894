"""The directory that a run of `gixcfg` works in, with what the run says stands there."""

import contextlib
import ctypes
import os
import tempfile
import threading
from typing import NamedTuple, Optional, Union

# Linux's PR_CAPBSET_DROP, and the rights of root to read and write whatever the rights of a file are.
DROP_RIGHT = 24
PASSES_RIGHTS = (1, 2)

_LIBC = ctypes.CDLL(None, use_errno=True)


class Entry(NamedTuple):
    """What stands in the directory: its kind and its name, and its text, the place that it leads to, or its length; and the bits of its mode."""

    kind: str
    name: bytes
    content: Union[bytes, int] = b""
    mode: Optional[int] = None


@contextlib.contextmanager
def directory_of(entries):
    """Makes the directory. A pipe is fed as soon as it is opened."""
    with tempfile.TemporaryDirectory() as directory, contextlib.ExitStack() as pipes:
        for entry in entries:
            path = os.path.join(os.fsencode(directory), entry.name)
            if entry.kind == "pipe":
                pipes.enter_context(_fed(path, entry.content))
            else:
                _MAKERS[entry.kind](path, entry.content)
            if entry.mode is not None:
                os.chmod(path, entry.mode)
        yield directory


def _write(path, text):
    os.makedirs(os.path.dirname(path), exist_ok=True)
    with open(path, "wb") as file:
        file.write(text)


def _write_locked(path, text):
    _write(path, text)
    os.chmod(path, 0)


def _write_sparse(path, length):
    _write(path, b"")
    os.truncate(path, length)


_MAKERS = {
    "file": _write,
    "locked": _write_locked,
    "sparse": _write_sparse,
    "folder": lambda path, _: os.mkdir(path),
    "link": lambda path, target: os.symlink(target, path),
}
KINDS = [*_MAKERS, "pipe"]


@contextlib.contextmanager
def _fed(path, text):
    """A pipe under a name, which gives the text to the one who opens it, and ends."""
    os.mkfifo(path)
    feeder = threading.Thread(target=_feed, args=(path, text))
    feeder.start()
    try:
        yield
    finally:
        # Where nobody opened the pipe, the feeder still waits for that.
        end = os.open(path, os.O_RDONLY | os.O_NONBLOCK)
        feeder.join()
        os.close(end)


def _feed(path, text):
    with contextlib.suppress(BrokenPipeError), open(path, "wb", buffering=0) as pipe:
        pipe.write(text)


def files_in(directory):
    """The regular files that stand in the directory: of each its text and the bits of its mode. Links are left out."""
    found, top = {}, os.fsencode(directory)
    for inner, _, names in os.walk(top):
        for path in (os.path.join(inner, name) for name in names):
            if not os.path.islink(path) and os.path.isfile(path):
                found[os.path.relpath(path, top)] = _read(path)
    return found


def _read(path):
    """The text of a file and the bits of its mode, which it then has no more: one without rights is given some."""
    mode = os.stat(path).st_mode & 0o7777
    os.chmod(path, 0o600)
    with open(path, "rb") as file:
        return file.read(), mode


def drop_rights():
    """Takes from a process of root the rights to pass over the rights of files, from its next program on."""
    for right in PASSES_RIGHTS if os.geteuid() == 0 else ():
        if _LIBC.prctl(DROP_RIGHT, right, 0, 0, 0) != 0:
            raise OSError(ctypes.get_errno(), "the rights of root can't be dropped")
