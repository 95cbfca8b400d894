"""A program of the script language, held open behind pipes: a line in, a line out."""

import os
import select
import subprocess
import tempfile
import time

# More bytes than these are not sent at once: a pipe may hold no more while the program waits to be read.
MOST_AT_ONCE = 32768


class Ended(Exception):
    """The program ended, or gave no answer in time."""


class Program:
    """A running program. `limit` is the seconds that it has for each answer."""

    def __init__(self, path, limit, variables=None):
        self._limit = limit
        self._told = tempfile.TemporaryFile()
        self._unread = b""
        try:
            self._process = subprocess.Popen(
                [str(path)], stdin=subprocess.PIPE, stdout=subprocess.PIPE, stderr=self._told, bufsize=0,
                env={**os.environ, **(variables or {})})
        except OSError as fault:
            raise Ended(f"it can't be started: {fault}") from fault

    def ask(self, line):
        """The answer to a line."""
        return self.ask_all([line])[0]

    def ask_all(self, lines):
        """The answers to these lines."""
        text = "".join(line + "\n" for line in lines)
        if len(text) > MOST_AT_ONCE and len(lines) > 1:
            return [self.ask(line) for line in lines]
        self._send(text.encode())
        return [self._answer() for _ in lines]

    def _send(self, text):
        try:
            while text:
                text = text[self._process.stdin.write(text):]
        except BrokenPipeError:
            # What it answered before it ended is still to be read.
            pass

    def _answer(self):
        until = time.monotonic() + self._limit
        while b"\n" not in self._unread:
            more = self._read(until - time.monotonic())
            if not more:
                raise Ended(self._how_it_ended())
            self._unread += more
        line, self._unread = self._unread.split(b"\n", 1)
        return line.decode("utf-8", "replace")

    def _read(self, seconds):
        output = self._process.stdout
        ready, _, _ = select.select([output], [], [], max(seconds, 0))
        if not ready:
            raise Ended(f"no answer in {self._limit} seconds")
        return output.read(65536)

    def _how_it_ended(self):
        """The status, and the last line on standard error."""
        try:
            status = self._process.wait(self._limit)
        except subprocess.TimeoutExpired:
            return "it closed its output"
        self._told.seek(0)
        told = self._told.read().decode("utf-8", "replace").strip().split("\n")[-1]
        return f"it ended with status {status}" + (f": {told}" if told else "")

    def finish(self):
        """Ends its input. It should then end with status 0 and print nothing more."""
        self._process.stdin.close()
        until = time.monotonic() + self._limit
        rest = self._unread
        while True:
            more = self._read(until - time.monotonic())
            if not more:
                break
            rest += more
        if rest:
            raise Ended(f"it printed more than its answers: {rest[:200].decode('utf-8', 'replace')}")
        ended = self._how_it_ended()
        if self._process.returncode != 0:
            raise Ended(ended)

    def kill(self):
        """Ends it, however it stands."""
        self._process.kill()
        self._process.wait()
        for stream in (self._process.stdin, self._process.stdout, self._told):
            stream.close()
