"""Where configuration comes from, and what is known of places and directories."""
import enum
import os
from typing import List, NamedTuple, Optional

from gixcfg import _calls as c
from gixcfg._names import Entry, text_of
from gixcfg._saving import PathName


class Source(str, enum.Enum):
    """A place that configuration is read from. Each is a `str`, its name."""

    # (in the order of their numbers)
    GIT_INSTALLATION = "git-installation"
    """The configuration that was installed with git."""
    SYSTEM = "system"
    """The configuration of the whole machine."""
    GIT = "git"
    """The user's configuration in `git/config` of the directory for configuration."""
    USER = "user"
    """The user's configuration in `.gitconfig` of the home directory."""
    LOCAL = "local"
    """The repository's configuration."""
    WORKTREE = "worktree"
    """The configuration of one worktree."""
    ENV = "env"
    """Variables of the environment."""
    CLI = "cli"
    """Options of the command line."""
    API = "api"
    """The program itself: also a text that it parses."""
    ENV_OVERRIDE = "env-override"
    """Variables of the environment that override everything else."""

    def __str__(self) -> str:
        return str(self.value)

    @property
    def number(self) -> int:
        """The library's number."""
        return 1 << SOURCES.index(self)


SOURCES = list(Source)


class Origin(NamedTuple):
    """Where a whole file or a section comes from, as the library knows it."""

    source: Source
    """The place that it was read from: "system", "user", "local" and so on; "api" for a text that was parsed."""
    level: int
    """How many includes led to it."""
    is_trusted: bool
    """Whether it is fully trusted."""
    path: Optional[str]
    """Its path, if it has one."""


def origin_of(origin: c.Origin, path: bytes) -> Origin:
    """Where a file comes from, of what the library tells of it."""
    return Origin(SOURCES[origin.source.bit_length() - 1], origin.level, origin.trust == c.TRUST_FULL, os.fsdecode(path) if origin.has_path else None)


class Section(NamedTuple):
    """A section of a file: its name as it is spelled, its subsection, its entries in order, and where it comes from."""

    name: str
    subsection: Optional[str]
    entries: List[Entry]
    origin: Origin
    place: int
    """Its place among the sections of the file, from 0."""


class Includes(NamedTuple):
    """How includes are followed: ten files deep, and no deeper."""

    git_folder: Optional[PathName] = None
    """The directory of the repository, as `.git`, for the conditions `gitdir:` and `gitdir/i:`; without one they don't hold."""
    branch: Optional[str] = None
    """The full name of the branch, as `refs/heads/main`, for the condition `onbranch:`; without one it doesn't hold."""
    home: Optional[PathName] = None
    """The directory for `~/`; without one it is the user's."""
    strict: bool = False
    """Whether an include is refused whose path has a shorthand that stands for nothing; else it is left out."""


def _user_or(home: Optional[PathName]) -> str:
    return os.path.expanduser("~") if home is None else os.fspath(home)


def directories(installation: Optional[PathName], home: Optional[PathName]) -> c.Folders:
    """The directories that the shorthands of paths stand for, for the library."""
    return c.Folders(installation is not None, text_of("" if installation is None else os.fspath(installation)), True, text_of(_user_or(home)))


def includes_of(includes: Includes) -> c.Includes:
    """How includes are followed, for the library."""
    git = None if includes.git_folder is None else os.path.abspath(os.fspath(includes.git_folder))
    real_git = None if git is None else os.path.realpath(git)
    return c.Includes(includes.strict, False, directories(None, includes.home), git is not None, text_of(git or ""), text_of(real_git or ""),
                      includes.branch is not None, text_of(includes.branch or ""))


def places_of(installation: Optional[PathName], prefix: PathName, home: Optional[PathName]) -> c.Places:
    """The places of configuration, for the library."""
    return c.Places(installation is not None, text_of(os.fspath(installation or "")), text_of(os.fspath(prefix)), True, text_of(_user_or(home)))
