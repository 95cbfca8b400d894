"""Why something is refused."""
from typing import Optional


class ConfigError(Exception):
    """Something is refused: `number` is that of docs/refusals.md, `reason` says it in words."""

    def __init__(self, number: int, reason: str) -> None:
        # (all that it is made of, so that it can be pickled)
        super().__init__(number, reason)
        self.number = number
        self.reason = reason

    def __str__(self) -> str:
        return self.reason


class ParseError(ConfigError, ValueError):
    """A text is refused at a place: `line` and `column`, in bytes, count from 1, `offset` is how many bytes are before it."""

    def __init__(self, number: int, reason: str, line: int, column: int, offset: int) -> None:
        super().__init__(number, reason)
        self.args = (number, reason, line, column, offset)
        self.line = line
        self.column = column
        self.offset = offset
        self.path: Optional[str] = None

    def __str__(self) -> str:
        place = f"{self.line}:{self.column}: {self.reason}"
        return place if self.path is None else f"{self.path}:{place}"


class KeyNotFound(ConfigError, KeyError):
    """There is no such section, subsection or value (7, 8, 9)."""


class NotOfType(ConfigError, ValueError):
    """The value is there, and is no boolean or no integer (11), or no path that can be made out (12, 13, 14)."""


class Refused(ConfigError, ValueError):
    """A name or a value can't be written into a file (3, 4, 5, 6), a name is not UTF-8 (101), or the `Config` was closed (102)."""


class IncludeError(ConfigError):
    """A file can't be opened or read (19, 20, 21), or an include is refused: for its path (12, 13, 14, 16), its depth (15) or its condition
    (17, 18)."""


class VariableError(ConfigError, ValueError):
    """Variables of the environment set entries that are refused: their count (23), a key or a value that isn't set (24, 26) or isn't UTF-8
    (22), or a key without a dot (25)."""


class Locked(FileExistsError):
    """FILE.lock is there already, so another program edits the file."""
