"""The shim that refuses allocations (tools/refuse.c), built into a temporary directory."""

import itertools
import subprocess
from pathlib import Path


class NotBuilt(Exception):
    """The shim can't be built."""


class Shim:
    """The built shim, and the variables that a program gets for it."""

    def __init__(self, source, directory):
        self._library = Path(directory) / "refuse.so"
        self._directory = Path(directory)
        self._numbers = itertools.count()
        options = ["-shared", "-fPIC", "-O2", "-Wall", "-Wextra", "-Werror"]
        try:
            built = subprocess.run(["cc", *options, "-o", str(self._library), str(source)], stderr=subprocess.PIPE)
        except OSError as fault:
            raise NotBuilt(f"no C compiler: {fault}") from fault
        if built.returncode != 0:
            raise NotBuilt(f"cc can't build {source}: {built.stderr.decode('utf-8', 'replace')}")

    def by_command(self, first):
        """For a program of the script language: the allocation of this number is refused first."""
        return {"LD_PRELOAD": str(self._library), "REFUSE_FIRST": str(first)}

    def whole_process(self, number):
        """For any program: the allocation of this number is refused."""
        log = self._directory / f"refused-{next(self._numbers)}"
        return {"LD_PRELOAD": str(self._library), "REFUSE_AT": str(number), "REFUSE_LOG": str(log)}

    @staticmethod
    def was_refused(variables):
        """Whether the whole process that had these variables had an allocation refused."""
        return Path(variables["REFUSE_LOG"]).exists()
