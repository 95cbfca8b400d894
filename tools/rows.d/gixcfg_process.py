"""Makes a run of `gixcfg` as a process, with the streams that it is to have."""

import contextlib
import fcntl
import os
import resource
import signal
import socket
import subprocess
import tempfile

from gixcfg_folder import drop_rights, files_in, directory_of
from gixcfg_runs import Ending, Left

# Linux's F_SETPIPE_SZ, which Python has a name for from 3.10 on.
SET_PIPE_SIZE = 1031
PIPE_SIZE = 1 << 20

# How many times as long a run with a huge file has.
HUGE = 10


class Failed(Exception):
    """The run didn't end, or read what it was to leave unread."""


def unread(count):
    """The fault of a run that read so many bytes that were to stay unread."""
    return Failed(f"{count} bytes of its standard input were read")


def ending(program, run, limit, variables=None, sees_files=False):
    """How a run of this program ends, with what its directory has where that is asked for. `limit` is the seconds that it has."""
    with contextlib.ExitStack() as stack:
        directory = stack.enter_context(directory_of(run.entries))
        source = stack.enter_context(_source(run.input))
        out = stack.enter_context(_target(run.out))
        err = stack.enter_context(_target(run.err))
        try:
            process = subprocess.Popen(
                [os.fsencode(os.path.abspath(program))] + run.words, stdin=source, stdout=out, stderr=err, cwd=directory,
                preexec_fn=_preparation_of(run), env=_variables_of(run, variables or {}))
        except (OSError, subprocess.SubprocessError) as fault:
            raise Failed(f"it can't be started: {fault}") from fault
        printed, told = _communicate(process, limit * HUGE if run.is_huge else limit)
        if run.input.stays_unread and source.tell() != 0:
            raise unread(source.tell())
        files = {name: Left(*file) for name, file in files_in(directory).items()} if sees_files else None
        return Ending(_status(process), _seen(run.out, out, printed), _seen(run.err, err, told), files)


def _communicate(process, limit):
    try:
        return process.communicate(timeout=limit)
    except subprocess.TimeoutExpired:
        process.kill()
        process.communicate()
        raise Failed(f"no end in {limit} seconds") from None


def _status(process):
    code = process.returncode
    return str(code) if code >= 0 else f"signal-{-code}"


@contextlib.contextmanager
def _source(given):
    """Opens what is standard input."""
    if given.text is None:
        source = os.open(tempfile.gettempdir(), os.O_RDONLY)
    elif given.step:
        source = _packets(given)
    elif given.fails:
        source = _reset_socket(given.text)
    else:
        with tempfile.TemporaryFile(buffering=0) as file:
            file.write(given.text)
            file.seek(0)
            yield file
        return
    try:
        yield source
    finally:
        os.close(source)


def _packets(given):
    """A pipe that gives so many bytes at a read, since it keeps what was written in packets."""
    source, end = os.pipe2(os.O_DIRECT | os.O_CLOEXEC)
    fcntl.fcntl(end, SET_PIPE_SIZE, PIPE_SIZE)
    for at in range(0, len(given.text), given.step):
        os.write(end, given.text[at:at + given.step])
    os.close(end)
    return source


def _reset_socket(text):
    """A socket that gives the text and then fails: the other side was closed before it read what it was sent."""
    ours, theirs = socket.socketpair()
    theirs.send(b"?")
    ours.sendall(text)
    ours.close()
    return theirs.detach()


@contextlib.contextmanager
def _target(wanted):
    """Opens what takes standard output or error."""
    if wanted.is_full:
        with open("/dev/full", "wb", buffering=0) as full:
            yield full
    elif wanted.room is not None:
        with tempfile.TemporaryFile() as file:
            yield file
    else:
        yield subprocess.PIPE


def _seen(wanted, target, taken):
    if wanted.is_full:
        return None
    if wanted.room is None:
        return taken
    target.seek(0)
    return target.read()


def _variables_of(run, variables):
    """The variables of the process: its own in place of ours, but for those that it is to have not."""
    own = {name: text for name, text in run.variables.items() if text is not None}
    return {**{name: text for name, text in os.environb.items() if name not in run.variables}, **own, **variables}


def _preparation_of(run):
    """What is done in the process before the program."""
    rooms = [output.room for output in (run.out, run.err) if output.room is not None]
    if not rooms and not run.has_locked:
        return None

    def prepare():
        if rooms:
            _limit_files(min(rooms))
        if run.has_locked:
            drop_rights()

    return prepare


def _limit_files(room):
    """Files can't grow past the room, and a write tells so."""
    signal.signal(signal.SIGXFSZ, signal.SIG_IGN)
    resource.setrlimit(resource.RLIMIT_FSIZE, (room, room))
